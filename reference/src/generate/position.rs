//! List positions, good and bad.

use crate::rng::Rng;

/// A position in a wait list of `entries` entries: often the first or the last.
pub fn position(rng: &mut Rng, entries: usize) -> u32 {
    // An empty list has position 0, as a list of one entry has.
    let positions = entries.max(1);
    let position = match rng.below(4) {
        0 => 0,
        1 => positions - 1,
        _ => rng.below(positions),
    };
    position as u32
}

/// At the list's end or past it, which is turned down with reason 4; 0 fits an empty
/// list, so 1 is the first past that.
pub fn refused_position(rng: &mut Rng, entries: usize) -> u32 {
    let first = entries.max(1);
    match rng.below(4) {
        0 => u32::MAX,
        1 => rng.between(first, first + 9) as u32,
        2 => rng.between(first, u32::MAX as usize) as u32,
        _ => first as u32,
    }
}
