//! Bottoms of memory (CR 6), good and bad.

use crate::rng::Rng;

/// A bottom for a memory of `words` words: often 0; a few words, all of them or any
/// number; and next to where a register points, so that stores are on both sides.
pub fn bottom(rng: &mut Rng, words: usize, registers: &[u32; 8]) -> u32 {
    let length = words as u32;
    let bottom = match rng.below(8) {
        0..=2 => 0,
        3 => rng.between(1, 4) as u32,
        4 => length,
        5 => rng.below(words + 1) as u32,
        _ => rng.pick(registers).saturating_add(rng.below(3) as u32),
    };
    bottom.min(length)
}

/// A bottom that is turned down with reason 21; every other time just past the memory.
pub fn refused_bottom(rng: &mut Rng, words: usize) -> u32 {
    let first = words + 1;
    match rng.below(4) {
        0 => u32::MAX,
        1 => rng.between(first, u32::MAX as usize) as u32,
        _ => first as u32,
    }
}
