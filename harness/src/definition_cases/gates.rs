//! Gate runs, about half of them with resets.

use super::programs::{
    bottom_programs, clock_total, halting_programs, small, HALT_WAIT, LENGTH, STORED, STORE_WAIT,
};
use super::restarts;
use super::shapes::gate_case;
use reference::generate::program::Program;
use reference::generate::resets::resets;
use reference::generate::state::gate_state;
use reference::rng::Rng;
use reference::GateState;

const GATE_RUNS: usize = 240;

pub fn cases(rng: &mut Rng) -> Vec<String> {
    let mut cases: Vec<String> = (0..GATE_RUNS).map(|i| any_gate_case(rng, i)).collect();
    cases.extend(halting_programs().iter().flat_map(around_halt));
    cases.extend(bottom_programs().iter().flat_map(around_store));
    cases.extend(lent_stores());
    cases.extend(restarts::cases());
    cases
}

/// Every other case starts between instructions and ends around the clock total, which is
/// counted from the clock after the last reset; one in four has no resets.
fn any_gate_case(rng: &mut Rng, number: usize) -> String {
    let p = small(rng);
    let mut state = gate_state(rng, p.memory.len(), p.waits.len());
    state.left = state.left.min(9);
    let lent = number % 2 == 1;
    if !lent {
        state = p.gate_start(state);
    }
    let mut clocks = rng.between(0, 40) as u64;
    let mut list = match number % 4 {
        0 => Vec::new(),
        _ => resets(rng, &p, state, clocks),
    };
    if !lent {
        list.retain(|&reset| reset < clocks);
        let total = restarts::total(&p, &list, &state, p.count.min(4));
        clocks = (total + number as u64 / 4 % 3).saturating_sub(1);
    }
    gate_case(&p, &list, &state, clocks)
}

/// Just before the halting word's read is complete, at that clock, and some later.
fn around_halt(p: &Program) -> Vec<String> {
    let halt = clock_total(p, p.count) + 2 + u64::from(HALT_WAIT);
    let state = p.gate_start(GateState::default());
    let case = |clocks| gate_case(p, &[], &state, clocks);
    [halt - 1, halt, halt + 9].map(case).to_vec()
}

/// Just before the first store is complete, at that clock, and after both.
fn around_store(p: &Program) -> Vec<String> {
    // Rows 0 to 3, 5 to 7 and 9, with the waits up to the store's.
    let store = 8 + 1 + u64::from(STORE_WAIT);
    let state = p.gate_start(GateState::default());
    let ends = [store - 1, store, clock_total(p, p.count)];
    let case = |clocks| gate_case(p, &[], &state, clocks);
    ends.map(case).to_vec()
}

/// States lent in row 9, below the bottom, at it and past the memory.
fn lent_stores() -> Vec<String> {
    let p = Program {
        bottom: STORED,
        ..bottom_programs()[0].clone()
    };
    let case = |address| {
        let state = GateState {
            row: 9,
            address,
            result: 99,
            ..p.gate_start(GateState::default())
        };
        gate_case(&p, &[], &state, 2)
    };
    [STORED - 1, STORED, LENGTH].map(case).to_vec()
}
