//! Bits with which a word is no instruction (CR 5).

use crate::instruction::HALTING_BITS;
use crate::rng::Rng;

pub const BIT_NUMBERS: [u32; 13] = [14, 20, 21, 22, 23, 24, 25, 26, 27, 28, 29, 30, 31];

/// One of them; every other time with any of the others.
pub fn halting_bits(rng: &mut Rng) -> u32 {
    let one = 1 << rng.pick(&BIT_NUMBERS);
    if rng.flag() {
        one
    } else {
        one | rng.word() & HALTING_BITS
    }
}
