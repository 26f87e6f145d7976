//! Gate states a host may lend, good and bad.

use super::flags;
use super::position::{position, refused_position};
use crate::gates::{GateState, HALTED_ROW};
use crate::rng::Rng;

/// An accepted state in any row, for a memory of `words` words and a wait list
/// of `entries` entries; the latches need not fit each other.
pub fn gate_state(rng: &mut Rng, words: usize, entries: usize) -> GateState {
    let row = rng.between(0, HALTED_ROW.into()) as u8;
    let begun = is_access(row) && rng.flag();
    let left = match rng.below(10) {
        _ if !begun => 0,
        0 => rng.between(1, usize::from(u16::MAX)) as u16,
        _ => rng.between(1, 5) as u16,
    };
    GateState {
        registers: [(); 8].map(|()| latch(rng, words)),
        flags: flags(rng),
        row,
        instruction: rng.word(),
        address: latch(rng, words),
        a: latch(rng, words),
        b: latch(rng, words),
        result: latch(rng, words),
        position: position(rng, entries),
        begun,
        left,
    }
}

/// A state that is turned down with reason 4.
pub fn refused_gate_state(rng: &mut Rng, words: usize, entries: usize) -> GateState {
    let mut state = gate_state(rng, words, entries);
    match rng.below(5) {
        0 => state.row = row_past(rng),
        1 => state.position = refused_position(rng, entries),
        2 => {
            state.row = rng.pick(&[0, 2, 3, 5, 7, 8, 10, 11, HALTED_ROW]);
            state.begun = true;
            state.left = rng.between(1, 5) as u16;
        }
        3 => {
            state.row = rng.pick(&[1, 4, 6, 9]);
            state.begun = true;
            state.left = 0;
        }
        _ => {
            state.begun = false;
            state.left = rng.between(1, usize::from(u16::MAX)) as u16;
        }
    }
    state
}

/// Above the last row; every other time just above it.
fn row_past(rng: &mut Rng) -> u8 {
    let first = HALTED_ROW + 1;
    if rng.flag() {
        first
    } else {
        rng.between(first.into(), u8::MAX.into()) as u8
    }
}

fn is_access(row: u8) -> bool {
    matches!(row, 1 | 4 | 6 | 9)
}

/// Mostly an address within memory.
fn latch(rng: &mut Rng, words: usize) -> u32 {
    match rng.below(10) {
        0 => rng.word(),
        1 => words as u32,
        _ => rng.below(words) as u32,
    }
}
