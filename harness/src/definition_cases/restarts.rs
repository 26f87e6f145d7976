//! Resets (CR 7) at every border of a gate run.

use super::shapes::gate_case;
use reference::generate::program::Program;
use reference::{gate_run, run, GateState, Machine};

/// Clocks of the run that goes on for so many instructions after the last reset: the
/// interpreter's clock total is counted from there.
pub fn total(p: &Program, resets: &[u64], state: &GateState, count: u32) -> u64 {
    let begin = resets.last().map_or(0, |last| last + 1);
    let mut memory = p.memory.clone();
    let left = gate_run(&mut memory, p.bottom, &p.waits, resets, *state, begin).state;
    let (start, position) = (left.machine(), left.position);
    let ran = run(&mut memory, p.bottom, &p.waits, position, start, count);
    begin + ran.clocks
}

pub fn cases() -> Vec<String> {
    let mut cases = on_each_clock();
    cases.extend(around_the_end());
    cases.extend(of_lent_states());
    cases
}

/// Adds the word at r1 to the word at r2, from address 1: rows 4, 6 and 9, and both
/// registers step up. At 0 r3 is counted up.
fn addition() -> (Program, GateState) {
    let program = Program {
        memory: vec![0x0001_0063, 0x0003_3F59, 5, 0xFFFF_FFFB],
        bottom: 0,
        // Of the first instruction, and then of the next fetch.
        waits: vec![1, 2, 0, 1, 3],
        position: 0,
        start: Machine {
            registers: [1, 2, 3, 9, 0, 0, 0, 0],
            ..Machine::default()
        },
        count: 1,
    };
    let latches = GateState {
        instruction: 11,
        address: 12,
        a: 13,
        b: 14,
        result: 15,
        ..GateState::default()
    };
    let state = program.gate_start(latches);
    (program, state)
}

/// Eleven rows and four waits.
const CLOCKS: u64 = 11 + 1 + 2 + 1;

/// A reset on each clock of the addition and on the first after it; every third goes on
/// for an instruction.
fn on_each_clock() -> Vec<String> {
    let (p, state) = addition();
    let case = |clock: u64| {
        let resets = [clock];
        let clocks = match clock % 3 {
            0 => total(&p, &resets, &state, 1),
            _ => clock + 1,
        };
        gate_case(&p, &resets, &state, clocks)
    };
    (0..=CLOCKS).map(case).collect()
}

/// At the run's end and past it, where they have no effect; on its last clock; several in
/// a row, and on every clock.
fn around_the_end() -> Vec<String> {
    let (p, state) = addition();
    let lists = [
        (vec![0], 0),
        (vec![6], 6),
        (vec![7, 8, u64::MAX], 7),
        (vec![u64::MAX], 9),
        (vec![0, 8], 9),
        (vec![5, 6, 7], 20),
        (vec![3, 9, 10, 30], 25),
        ((0..8).collect(), 8),
        ((0..4).collect(), 15),
    ];
    let case = |(resets, clocks): (Vec<u64>, u64)| gate_case(&p, &resets, &state, clocks);
    lists.map(case).to_vec()
}

/// Stuck at an absent address in each access row, with the access begun or not, and
/// halted in row 12: until a reset, and then through an instruction.
fn of_lent_states() -> Vec<String> {
    let (p, between) = addition();
    let mut cases = Vec::new();
    for (row, begun) in [
        (1, false),
        (4, true),
        (6, false),
        (9, true),
        (9, false),
        (12, false),
    ] {
        let state = GateState {
            row,
            address: 99,
            begun,
            left: u16::from(begun),
            ..between
        };
        let end = total(&p, &[3], &state, 1);
        let clocks = [3, 4, end];
        cases.extend(clocks.map(|clocks| gate_case(&p, &[3], &state, clocks)));
    }
    cases
}
