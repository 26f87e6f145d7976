//! The proved calls against the reference emulator on generated and directed cases.

mod alone;
pub mod bottom;
pub mod directed;
mod expected;
pub mod gates;
pub mod halting;
pub mod images;
pub mod journal_files;
pub mod journals;
mod lent;
pub mod limits;
pub mod long;
pub mod misfits;
mod outcome;
pub mod programs;
mod proved;
pub mod refusals;
pub mod resets;
mod restarts;
pub mod stack;
pub mod strides;
pub mod sums;
mod taken_back;
pub mod traverse_borders;
pub mod traverse_limits;
pub mod traverses;
pub mod vectors;

use crate::text::hex_bytes;
use outcome::Outcome;
use reference::{image, Machine};
use std::fmt::Display;

/// Nothing, or the text of a case on which the two differ.
pub type Check = Result<(), String>;

/// Compares two outcomes of one call; `case` gives the text of what was lent.
fn same(call: &str, proved: &Outcome, expected: &Outcome, case: impl FnOnce() -> String) -> Check {
    if proved == expected {
        return Ok(());
    }
    let case = case();
    Err(format!(
        "{call} differs\n{case}expected:\n{expected}proved:\n{proved}"
    ))
}

/// What a run was lent: the image of its start, the bottom, the wait list, and how far.
fn run_case(
    memory: &[u32],
    bottom: u32,
    machine: &Machine,
    waits: &[u16],
    far: impl Display,
) -> String {
    let image = match image::to_bytes(machine, memory, 1) {
        Ok(bytes) => hex_bytes(&bytes),
        Err(refusal) => format!("none, as the writer refuses it with {refusal}"),
    };
    format!("image {image}\nbottom {bottom}\nwaits {waits:?}\n{far}\n")
}
