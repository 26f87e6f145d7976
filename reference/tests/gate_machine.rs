//! The gate machine by itself: its rows, its waits, and runs in parts.

use reference::generate::program::{any_program, Program};
use reference::generate::state::gate_state;
use reference::rng::Rng;
use reference::{gate_clock, gate_run, GateResult, GateState, Instruction, Refusal};

/// One clock without checks failing; returns whether an instruction finished.
fn clock(memory: &mut [u32], bottom: u32, waits: &[u16], state: &mut GateState) -> bool {
    gate_clock(memory, bottom, waits, state).unwrap() == 1
}

#[test]
fn runs_in_parts_equal_one_run() {
    let mut rng = Rng::new(5);
    for _ in 0..20_000 {
        let Program {
            memory: words,
            bottom,
            waits,
            ..
        } = any_program(&mut rng);
        let state = gate_state(&mut rng, words.len(), waits.len());
        let clocks = rng.between(0, 150) as u64;
        let mut whole_memory = words.clone();
        let whole = gate_run(&mut whole_memory, bottom, &waits, &[], state, clocks);

        let mut memory = words.clone();
        let mut parts = GateResult {
            answer: Ok(()),
            state,
            finished: 0,
        };
        let mut left = clocks;
        while left > 0 {
            let part = 1 + rng.below(left as usize) as u64;
            let result = gate_run(&mut memory, bottom, &waits, &[], parts.state, part);
            parts.state = result.state;
            parts.finished += result.finished;
            left -= part;
        }
        assert_eq!(parts, whole);
        assert_eq!(memory, whole_memory);
    }
}

#[test]
fn single_clocks_equal_one_run() {
    let mut rng = Rng::new(6);
    for _ in 0..5_000 {
        let Program {
            memory: words,
            bottom,
            waits,
            ..
        } = any_program(&mut rng);
        let start = gate_state(&mut rng, words.len(), waits.len());
        let clocks = rng.between(0, 100) as u64;
        let mut whole_memory = words.clone();
        let whole = gate_run(&mut whole_memory, bottom, &waits, &[], start, clocks);

        let mut memory = words.clone();
        let mut state = start;
        let finished = (0..clocks)
            .filter(|_| clock(&mut memory, bottom, &waits, &mut state))
            .count();
        assert_eq!((state, finished as u64), (whole.state, whole.finished));
        assert_eq!(memory, whole_memory);
    }
}

/// Copies from `after` into `before` all that the row's work names.
fn allow_named(before: &mut GateState, after: &GateState) {
    let instruction = Instruction::decode(before.instruction);
    let (a, b) = (instruction.a.register(), instruction.b.register());
    match before.row {
        0 => before.address = after.address,
        1 => before.instruction = after.instruction,
        2 => before.registers[0] = after.registers[0],
        3 => {
            before.registers[a] = after.registers[a];
            before.address = after.address;
            before.a = after.a;
        }
        4 => before.a = after.a,
        5 => {
            before.registers[b] = after.registers[b];
            before.address = after.address;
            before.b = after.b;
        }
        6 => before.b = after.b,
        7 => (before.result, before.flags) = (after.result, after.flags),
        8 | 11 => before.registers[b] = after.registers[b],
        10 => before.registers[a] = after.registers[a],
        12 => return,
        _ => {}
    }
    if matches!(before.row, 1 | 4 | 6 | 9) {
        before.position = after.position;
        (before.begun, before.left) = (after.begun, after.left);
    }
    before.row = after.row;
}

#[test]
fn a_row_changes_only_what_its_work_names() {
    let mut rng = Rng::new(7);
    for _ in 0..100_000 {
        let Program {
            memory: words,
            bottom,
            waits,
            ..
        } = any_program(&mut rng);
        let mut before = gate_state(&mut rng, words.len(), waits.len());
        let mut after = before;
        let mut memory = words.clone();
        let finished = clock(&mut memory, bottom, &waits, &mut after);
        assert_eq!(finished, before.row == 11);
        if before.row == 9 && after.row == 10 && before.address >= bottom {
            let mut due = words.clone();
            due[before.address as usize] = before.result;
            assert_eq!(memory, due);
        } else {
            assert_eq!(memory, words);
        }
        allow_named(&mut before, &after);
        assert_eq!(before, after);
    }
}

#[test]
fn a_direct_operand_leaves_the_address_latch() {
    let mut state = GateState {
        row: 3,
        instruction: 0x0000_0041,
        address: 77,
        registers: [0, 11, 22, 0, 0, 0, 0, 0],
        ..GateState::default()
    };
    clock(&mut [0], 0, &[], &mut state);
    assert_eq!((state.a, state.address, state.row), (11, 77, 5));
    clock(&mut [0], 0, &[], &mut state);
    assert_eq!((state.b, state.address, state.row), (22, 77, 7));
}

#[test]
fn the_result_is_latched_even_where_nothing_is_stored() {
    let mut state = GateState {
        row: 7,
        instruction: 0x0001_8041,
        a: 5,
        ..GateState::default()
    };
    clock(&mut [0], 0, &[], &mut state);
    assert_eq!((state.result, state.row), (5, 10));
}

/// Rows 8 and 9 of a lent state do not ask for B's mode.
#[test]
fn storing_rows_follow_the_table_whatever_the_instruction() {
    let lent = |row, instruction| GateState {
        row,
        instruction,
        address: 1,
        result: 9,
        ..GateState::default()
    };
    let mut memory = [0; 2];
    let mut indirect_b = lent(8, 0x0000_0140);
    clock(&mut memory, 0, &[], &mut indirect_b);
    assert_eq!((indirect_b.registers[2], indirect_b.row), (9, 10));
    assert_eq!(memory, [0, 0]);
    let mut direct_b = lent(9, 0x0000_0040);
    clock(&mut memory, 0, &[], &mut direct_b);
    assert_eq!((direct_b.registers[2], direct_b.row), (0, 10));
    assert_eq!(memory, [0, 9]);
}

#[test]
fn an_access_completes_on_clock_1_plus_w() {
    for wait in [0, 1, 2, u16::MAX] {
        let waits = [7, wait, 7];
        let start = GateState {
            row: 1,
            position: 1,
            ..GateState::default()
        };
        let before = gate_run(&mut [0x58], 0, &waits, &[], start, u64::from(wait));
        assert_eq!(before.state.row, 1);
        assert_eq!(before.state.instruction, 0);
        assert_eq!(before.state.begun, wait > 0);
        assert_eq!(before.state.left, u16::from(wait > 0));
        let after = gate_run(&mut [0x58], 0, &waits, &[], start, u64::from(wait) + 1);
        let due = GateState {
            row: 2,
            position: 2,
            instruction: 0x58,
            ..start
        };
        assert_eq!(after.state, due);
    }
}

#[test]
fn an_absent_address_is_never_acknowledged() {
    for row in [1, 4, 6, 9] {
        for (begun, left) in [(false, 0), (true, 1), (true, 500)] {
            let start = GateState {
                row,
                begun,
                left,
                address: 2,
                result: 5,
                ..GateState::default()
            };
            let mut memory = [3, 4];
            for (clocks, bottom) in [(1, 0), (2, 1), (1_000, 2), (u64::MAX, 0), (u64::MAX, 2)] {
                let result = gate_run(&mut memory, bottom, &[0, 6], &[], start, clocks);
                assert_eq!((result.answer, result.finished), (Ok(()), 0));
                assert_eq!(result.state, start);
            }
            assert_eq!(memory, [3, 4]);
        }
    }
}

#[test]
fn a_run_of_no_clocks_changes_nothing() {
    let mut rng = Rng::new(8);
    for _ in 0..1_000 {
        let state = gate_state(&mut rng, 8, 8);
        let result = gate_run(&mut [0; 8], 0, &[1; 8], &[], state, 0);
        let due = GateResult {
            answer: Ok(()),
            state,
            finished: 0,
        };
        assert_eq!(result, due);
    }
}

#[test]
fn a_refused_clock_leaves_the_lent_state() {
    let state = GateState {
        row: 13,
        ..GateState::default()
    };
    let mut lent = state;
    let answer = gate_clock(&mut [1], 0, &[], &mut lent);
    assert_eq!(answer, Err(Refusal::BadGateState));
    assert_eq!(lent, state);
}
