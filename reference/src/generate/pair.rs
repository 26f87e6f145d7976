//! Pairs of words to add.

use crate::rng::Rng;

/// Any two words, or, every other time, a word and nearly its complement, so that
/// carries pass through long ranges.
pub fn pair(rng: &mut Rng) -> (u32, u32) {
    let x = rng.word();
    let y = if rng.flag() {
        rng.word()
    } else {
        !x ^ 1 << rng.below(32)
    };
    (x, y)
}
