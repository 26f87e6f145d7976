//! Seeded generators of cases for comparing emulators.

pub mod bottom;
pub mod halting;
pub mod image;
pub mod journal;
pub mod looping;
pub mod pair;
pub mod position;
pub mod program;
pub mod resets;
pub mod state;
pub mod traverse;
pub mod traverse_faults;

use crate::machine::Flags;
use crate::rng::Rng;

/// Any four flags.
pub fn flags(rng: &mut Rng) -> Flags {
    Flags::from_array([(); 4].map(|()| rng.flag()))
}
