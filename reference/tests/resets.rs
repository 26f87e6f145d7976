//! Document 02, CR 7, in the gate machine: what a reset clock does, on each clock of an
//! instruction, in each row, and at the borders of a run.

mod common;

use common::{cut, machine};
use reference::generate::program::{any_program, Program};
use reference::generate::resets::resets;
use reference::generate::state::gate_state;
use reference::rng::Rng;
use reference::{gate_run, GateResult, GateState};

/// Adds 1 to r1: 9 clocks.
const INCREMENT: u32 = 0x0001_0021;

/// Adds the word at r1 to the word at r2, with all flags; both registers step up.
const ADD: u32 = 0x0003_3F59;

/// -50 at r1 onto the 50 at r2, by the instruction at 1, about to begin.
fn addition() -> ([u32; 4], GateState) {
    let memory = [INCREMENT, ADD, 50_u32.wrapping_neg(), 50];
    let state = GateState {
        instruction: 101,
        address: 102,
        a: 103,
        b: 104,
        result: 105,
        ..GateState::start(machine(&[(0, 1), (1, 2), (2, 3), (5, 7)], "0110"))
    };
    (memory, state)
}

/// The waits of its four accesses, which begin on clocks 1, 5, 9 and 14.
const WAITS: [u16; 6] = [1, 2, 3, 4, 5, 6];
const FIRST_CLOCKS: [u64; 4] = [1, 5, 9, 14];

/// What a reset on a clock leaves of the addition: all that the clocks before it did,
/// and row 0, r0 0 and no access. The reset's own clock does nothing of its row.
fn left_by_reset(clock: u64) -> ([u32; 4], GateState) {
    let (mut memory, mut state) = addition();
    let done = |last: u64| clock > last;
    state.registers[0] = 0;
    state.registers[1] += u32::from(done(19));
    state.registers[2] += u32::from(done(20));
    // Rows 0, 3 and 5 latch an address.
    let addresses = [(0, 1), (4, 2), (8, 3)];
    for (_, address) in addresses.into_iter().filter(|&(last, _)| done(last)) {
        state.address = address;
    }
    if done(2) {
        state.instruction = ADD;
    }
    if done(7) {
        state.a = memory[2];
    }
    if done(12) {
        state.b = 50;
    }
    if done(13) {
        (state.result, state.flags) = (0, common::flags("1001"));
    }
    if done(18) {
        memory[3] = 0;
    }
    let begun = FIRST_CLOCKS.iter().filter(|&&first| done(first));
    state.position = begun.count() as u32;
    (memory, state)
}

/// On row 0, on an access's first clock, during its wait, on its completing clock, on
/// row 11, which is clock 20, and just after it.
#[test]
fn on_each_clock_of_an_instruction() {
    for clock in 0..=21 {
        let (mut memory, state) = addition();
        let result = gate_run(&mut memory, 0, &WAITS, &[clock], state, clock + 1);
        let (due_memory, due) = left_by_reset(clock);
        assert_eq!(result.answer, Ok(()));
        assert_eq!(result.state, due, "clock {clock}");
        assert_eq!(memory, due_memory, "clock {clock}");
        assert_eq!(result.finished, u64::from(clock > 20), "clock {clock}");
    }
}

/// The increment at 0 runs next; its fetch takes the entry at the position.
#[test]
fn the_machine_goes_on_from_0() {
    for clock in 0..=21 {
        let (mut memory, state) = addition();
        let (_, left) = left_by_reset(clock);
        let wait = WAITS[left.position as usize];
        let clocks = clock + 1 + 9 + u64::from(wait);
        let before = u64::from(clock > 20);
        for (clocks, finished) in [(clocks - 1, before), (clocks, before + 1)] {
            let mut memory = memory;
            let result = gate_run(&mut memory, 0, &WAITS, &[clock], state, clocks);
            assert_eq!(result.finished, finished, "clock {clock}");
        }
        let result = gate_run(&mut memory, 0, &WAITS, &[clock], state, clocks);
        assert_eq!(result.state.registers[..2], [1, left.registers[1] + 1]);
        assert_eq!((result.state.row, result.state.flags), (0, left.flags));
    }
}

/// Any latches in each row, an access begun or not, at its last clock, or absent.
#[test]
fn in_every_row_of_a_lent_state() {
    let mut rng = Rng::new(71);
    let mut rows = [0; 13];
    for _ in 0..20_000 {
        let program = any_program(&mut rng);
        let lent = gate_state(&mut rng, program.memory.len(), program.waits.len());
        rows[usize::from(lent.row)] += 1;
        let mut memory = program.memory.clone();
        let result = gate_run(&mut memory, program.bottom, &program.waits, &[0], lent, 1);
        let due = GateResult {
            answer: Ok(()),
            state: cut(&lent),
            finished: 0,
        };
        assert_eq!(result, due, "{lent:?}");
        assert_eq!(memory, program.memory);
    }
    assert!(rows.iter().all(|&times| times > 1_000), "{rows:?}");
}

/// A program that finishes one instruction after each restart and then stays in row 12
/// or at an absent address, and the row in which it stays.
fn programs_that_stay() -> [([u32; 3], u8); 5] {
    // r7 is 9, past the memory: as A's address, as B's, and as the next r0.
    let (a_outside, b_outside) = (0x0000_002F, 0x0000_01E1);
    let jump = 0x0000_0007;
    [
        ([INCREMENT, INCREMENT | 1 << 14, 0], 12),
        ([INCREMENT, 1 << 31, 0], 12),
        ([INCREMENT, a_outside, 0], 4),
        ([INCREMENT, b_outside, 0], 6),
        ([jump, 0, 0], 1),
    ]
}

/// Over all the clocks that a run can have, with resets far apart.
#[test]
fn a_machine_that_stays_comes_free() {
    let last = u64::MAX - 1;
    let lists = [
        (vec![], 1),
        (vec![u64::MAX], 1),
        (vec![1_000, 1 << 40, last], 3),
        (vec![1_000, 1 << 40, last, u64::MAX], 3),
        (vec![1 << 63], 2),
        (vec![last - 100], 2),
    ];
    for (memory, row) in programs_that_stay() {
        let start = GateState::start(machine(&[(7, 9)], "0000"));
        for (resets, finished) in &lists {
            let result = gate_run(&mut memory.clone(), 0, &[], resets, start, u64::MAX);
            assert_eq!(result.answer, Ok(()));
            assert_eq!(result.finished, *finished, "row {row}, {resets:?}");
            let ends_reset = resets.contains(&last);
            assert_eq!(result.state.row, if ends_reset { 0 } else { row });
        }
    }
}

/// Lent where it stays, with or without an access that had begun, in a row that stores
/// too; one clock less, and row 11 is not done.
#[test]
fn a_lent_machine_that_stays_comes_free() {
    let stays = [(1, true), (4, true), (6, true), (9, true), (12, false)];
    for (row, is_access) in stays {
        for begun in [false, is_access] {
            let lent = GateState {
                row,
                address: 2,
                begun,
                left: u16::from(begun) * 3,
                ..GateState::start(machine(&[(0, 77), (1, 5)], "1010"))
            };
            let run = |resets: &[u64], clocks| {
                let mut memory = [INCREMENT, 1 << 20];
                gate_run(&mut memory, 0, &[], resets, lent, clocks)
            };
            let reset = u64::MAX - 10;
            assert_eq!(run(&[reset], reset).state, lent);
            assert_eq!(run(&[reset], reset + 1).state, cut(&lent));
            let after = run(&[reset], u64::MAX);
            let increment = machine(&[(0, 1), (1, 6)], "1010");
            assert_eq!((after.finished, after.state.row), (1, 0));
            assert_eq!(after.state.machine(), increment);
            let after = run(&[reset + 1], u64::MAX);
            assert_eq!((after.finished, after.state.row), (0, 11));
        }
    }
}

#[test]
fn a_million_resets_far_apart() {
    let resets: Vec<u64> = (0..1_000_000).map(|i| 1 + (i << 42)).collect();
    let mut memory = [INCREMENT, 1 << 14];
    let start = GateState::start(machine(&[], "0000"));
    let result = gate_run(&mut memory, 0, &[3], &resets, start, 1 << 62);
    // The first comes during row 1, so that nothing finished before it.
    assert_eq!((result.finished, result.state.row), (1_000_000, 12));
    assert_eq!(result.state.registers[1], 1_000_000);
}

/// Nothing is done then but the first.
#[test]
fn resets_on_every_clock() {
    let mut rng = Rng::new(72);
    for _ in 0..1_000 {
        let program = any_program(&mut rng);
        let lent = gate_state(&mut rng, program.memory.len(), program.waits.len());
        let clocks = rng.between(1, 40) as u64;
        let every: Vec<u64> = (0..clocks).collect();
        let mut memory = program.memory.clone();
        let Program { bottom, waits, .. } = &program;
        let result = gate_run(&mut memory, *bottom, waits, &every, lent, clocks);
        assert_eq!((result.state, result.finished), (cut(&lent), 0));
        assert_eq!(memory, program.memory);
    }
}

/// A run and what it leaves in memory.
fn outcome(
    program: &Program,
    resets: &[u64],
    lent: GateState,
    clocks: u64,
) -> (GateResult, Vec<u32>) {
    let mut memory = program.memory.clone();
    let Program { bottom, waits, .. } = program;
    let result = gate_run(&mut memory, *bottom, waits, resets, lent, clocks);
    (result, memory)
}

/// The last clock is k - 1; a reset at k, or past it, would cut the state that is left.
#[test]
fn numbers_at_or_past_the_end_have_no_effect() {
    let mut rng = Rng::new(73);
    let mut cuts = 0;
    for _ in 0..10_000 {
        let program = any_program(&mut rng);
        let lent = gate_state(&mut rng, program.memory.len(), program.waits.len());
        let clocks = rng.between(0, 60) as u64;
        let mut within = resets(&mut rng, &program, lent, clocks);
        within.retain(|&number| number < clocks);
        let due = outcome(&program, &within, lent, clocks);
        for past in [
            vec![clocks],
            vec![clocks, clocks + 1, clocks + 7],
            vec![u64::MAX],
        ] {
            let list = [&within[..], &past].concat();
            assert_eq!(outcome(&program, &list, lent, clocks), due, "{list:?}");
        }
        let longer = outcome(
            &program,
            &[&within[..], &[clocks]].concat(),
            lent,
            clocks + 1,
        );
        assert_eq!(longer.0.state, cut(&due.0.state));
        assert_eq!((longer.0.finished, longer.1), (due.0.finished, due.1));
        cuts += u32::from(longer.0.state != due.0.state);
    }
    assert!(cuts > 5_000, "{cuts}");
}

/// Each clock by itself, with the reset written out here.
fn plainly(
    program: &Program,
    resets: &[u64],
    lent: GateState,
    clocks: u64,
) -> (GateResult, Vec<u32>) {
    let mut memory = program.memory.clone();
    let mut result = GateResult {
        answer: Ok(()),
        state: lent,
        finished: 0,
    };
    for number in 0..clocks {
        if resets.contains(&number) {
            result.state = cut(&result.state);
        } else {
            let Program { bottom, waits, .. } = program;
            let clock = reference::gate_clock(&mut memory, *bottom, waits, &mut result.state);
            result.finished += clock.expect("a good state");
        }
    }
    (result, memory)
}

#[test]
fn a_run_is_its_clocks_one_after_the_other() {
    let mut rng = Rng::new(74);
    for _ in 0..20_000 {
        let program = any_program(&mut rng);
        let lent = gate_state(&mut rng, program.memory.len(), program.waits.len());
        let clocks = rng.between(0, 150) as u64;
        let list = resets(&mut rng, &program, lent, clocks);
        let due = plainly(&program, &list, lent, clocks);
        assert_eq!(outcome(&program, &list, lent, clocks), due, "{list:?}");
    }
}
