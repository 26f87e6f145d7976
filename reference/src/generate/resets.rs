//! Reset lists (CR 7), good and bad.

use super::program::Program;
use crate::gates::{gate_run, GateState, HALTED_ROW};
use crate::rng::Rng;

/// A list for a run of `clocks` clocks of the program from `start`: none, resets that
/// hit what they are aimed at, any clocks, or several in a row; at times with the
/// run's first clock and its last, or with numbers past it, which have no effect.
pub fn resets(rng: &mut Rng, program: &Program, start: GateState, clocks: u64) -> Vec<u64> {
    let mut resets = match rng.below(6) {
        0 => Vec::new(),
        1..=3 => aimed(rng, program, start, clocks),
        4 => scattered(rng, clocks),
        _ => in_a_row(rng, clocks),
    };
    if rng.one_in(4) {
        resets.extend([0, clocks.saturating_sub(1)]);
    }
    if rng.one_in(4) {
        resets.extend([clocks, clocks + 1 + rng.below(50) as u64, u64::MAX]);
    }
    resets.sort();
    resets.dedup();
    resets
}

/// What a reset may cut off.
#[derive(Clone, Copy)]
enum Target {
    Row(u8),
    /// An access that has not taken its entry.
    FirstClock,
    /// An access that has.
    Waiting,
}

impl Target {
    fn any(rng: &mut Rng) -> Target {
        match rng.below(5) {
            0 => Target::FirstClock,
            1 => Target::Waiting,
            _ => Target::Row(rng.between(0, HALTED_ROW.into()) as u8),
        }
    }

    fn is_hit(self, state: &GateState) -> bool {
        match self {
            Target::Row(row) => state.row == row,
            Target::FirstClock => matches!(state.row, 1 | 4 | 6 | 9) && !state.begun,
            Target::Waiting => state.begun,
        }
    }
}

/// Goes through the run and holds reset on about every other clock that hits its target; then
/// it has another target.
fn aimed(rng: &mut Rng, program: &Program, start: GateState, clocks: u64) -> Vec<u64> {
    let (mut memory, mut state) = (program.memory.clone(), start);
    let mut target = Target::any(rng);
    let mut resets = Vec::new();
    for number in 0..clocks {
        let mut held = &[][..];
        if target.is_hit(&state) && rng.flag() {
            held = &[0];
            resets.push(number);
            target = Target::any(rng);
        }
        state = gate_run(&mut memory, program.bottom, &program.waits, held, state, 1).state;
    }
    resets
}

/// Up to five of the run's clocks.
fn scattered(rng: &mut Rng, clocks: u64) -> Vec<u64> {
    let times = rng.between(1, 5);
    (0..times).map(|_| any_clock(rng, clocks)).collect()
}

/// Up to five clocks that follow each other.
fn in_a_row(rng: &mut Rng, clocks: u64) -> Vec<u64> {
    let first = any_clock(rng, clocks);
    (first..first + rng.between(2, 5) as u64).collect()
}

/// A clock of the run, or 0 if it has none.
fn any_clock(rng: &mut Rng, clocks: u64) -> u64 {
    rng.below(clocks.max(1) as usize) as u64
}

/// A list that is turned down with reason 22: two neighbours are equal or fall, and the
/// others rise; about every other time all are past the run's end.
pub fn refused_resets(rng: &mut Rng, clocks: u64) -> Vec<u64> {
    let lowest = if rng.flag() { clocks } else { 0 };
    let mut next = lowest;
    let mut rise = || {
        next += 1 + rng.below(20) as u64;
        next
    };
    let mut resets: Vec<u64> = (0..5).map(|_| rise()).collect();
    let at = rng.below(4);
    if rng.flag() {
        resets[at + 1] = resets[at];
    } else {
        resets.swap(at, at + 1);
    }
    let end = rng.between(at + 2, 5);
    resets[rng.below(at + 1)..end].to_vec()
}
