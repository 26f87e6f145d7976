//! The bench words of document 01, on the interpreter and the gate machine.

mod common;

use common::{check_agreement, machine, OUTSIDE};
use reference::generate::program::Program;
use reference::{gate_run, run, Answer, GateState, Machine};

/// One instruction from the word at 0 of a memory of 4.
struct Case {
    memory: [u32; 4],
    waits: &'static [u16],
    start: Machine,
    end: Machine,
    /// The memory afterwards.
    left: [u32; 4],
    clocks: u64,
}

/// A case without waits that leaves memory as it was.
fn case(memory: [u32; 4], start: Machine, end: Machine, clocks: u64) -> Case {
    Case {
        memory,
        waits: &[],
        start,
        end,
        left: memory,
        clocks,
    }
}

/// A starred case on registers alone.
fn on_registers(word: u32, start: Machine, end: Machine, clocks: u64) -> Case {
    case([word, 0, 0, 0], start, end, clocks)
}

/// The starred cases on arithmetic, flags and conditions.
fn starred_arithmetic() -> Vec<Case> {
    let r1 = |word, flags| machine(&[(1, word)], flags);
    let r1_after = |word, flags| machine(&[(0, 1), (1, word)], flags);
    vec![
        on_registers(0x0001_3C21, r1(0xFFFF_FFFF, "0000"), r1_after(0, "1001"), 9),
        on_registers(
            0x0001_3C21,
            r1(0x7FFF_FFFF, "0000"),
            r1_after(0x8000_0000, "0110"),
            9,
        ),
        on_registers(
            0x0007_2041,
            r1(1, "0000"),
            machine(&[(0, 1), (1, 1), (2, 0xFFFF_FFFF)], "1000"),
            9,
        ),
        on_registers(
            0x0001_8441,
            machine(&[(2, 5)], "0000"),
            machine(&[(0, 1), (2, 5)], "0001"),
            8,
        ),
        on_registers(0x0008_2021, r1(1, "0000"), r1_after(0, "1000"), 9),
        on_registers(0x0008_2021, r1(0, "1000"), r1_after(0x8000_0000, "0000"), 9),
        on_registers(
            0x0004_3021,
            r1(0x8000_0000, "0000"),
            r1_after(0x8000_0000, "1100"),
            9,
        ),
    ]
}

/// The starred cases on memory and the order of the steps.
fn starred_memory() -> Vec<Case> {
    let none = machine(&[], "0000");
    let r1_is_2 = machine(&[(1, 2)], "0000");
    let constant = [0x0000_0058, 0x2A, 0, 0];
    let constant_end = machine(&[(0, 2), (2, 0x2A)], "0000");
    vec![
        case(constant, none, constant_end, 10),
        Case {
            waits: &[2, 3],
            ..case(constant, none, constant_end, 15)
        },
        case([0x0000_0018, 5, 0, 0], none, machine(&[(0, 6)], "0000"), 10),
        case(
            [0x0000_0339, 0, 7, 0],
            r1_is_2,
            machine(&[(0, 1), (1, 4)], "0000"),
            11,
        ),
        case(
            [0x0003_0031, 9, 0, 0],
            r1_is_2,
            machine(&[(0, 1), (1, 0xA)], "0000"),
            10,
        ),
    ]
}

/// What is to be ruled out and is not already a starred case.
fn ruled_out() -> Vec<Case> {
    vec![
        // Move if Z: the new Z, which is permitted, must not decide.
        on_registers(
            0x0005_8441,
            machine(&[(2, 5)], "0000"),
            machine(&[(0, 1), (2, 5)], "0001"),
            8,
        ),
        // Move if no Z, likewise.
        on_registers(
            0x0004_8441,
            machine(&[(2, 5)], "0000"),
            machine(&[(0, 1), (2, 0)], "0001"),
            9,
        ),
        // A steps up only after B's address was taken: word 2 is stored, not 3.
        Case {
            left: [0x0001_0339, 0, 8, 0],
            ..case(
                [0x0001_0339, 0, 7, 0],
                machine(&[(1, 2)], "0000"),
                machine(&[(0, 1), (1, 4)], "0000"),
                11,
            )
        },
        // A direct A is taken before B's register steps down.
        Case {
            left: [0x0000_0221, 0, 3, 0],
            ..case(
                [0x0000_0221, 0, 0, 0],
                machine(&[(1, 3)], "0000"),
                machine(&[(0, 1), (1, 2)], "0000"),
                10,
            )
        },
    ]
}

fn check_interpreter(case: &Case) {
    let mut memory = case.memory;
    let result = run(&mut memory, 0, case.waits, 0, case.start, 1);
    assert_eq!(result.answer, Answer::Finished);
    assert_eq!(result.machine, case.end, "{:08X}", case.memory[0]);
    assert_eq!(memory, case.left, "{:08X}", case.memory[0]);
    assert_eq!((result.ran, result.clocks), (1, case.clocks));
}

fn check_gates(case: &Case) {
    let start = GateState::start(case.start);
    let mut memory = case.memory;
    let result = gate_run(&mut memory, 0, case.waits, &[], start, case.clocks);
    assert_eq!(result.answer, Ok(()));
    assert_eq!(result.finished, 1);
    assert!(result.state.between_instructions());
    assert_eq!(result.state.machine(), case.end, "{:08X}", case.memory[0]);
    assert_eq!(memory, case.left);
    for clocks in [case.clocks - 1, case.clocks + 1] {
        let mut memory = case.memory;
        let result = gate_run(&mut memory, 0, case.waits, &[], start, clocks);
        assert!(!result.state.between_instructions(), "clock {clocks}");
    }
}

#[test]
fn bench_words_on_interpreter_and_gate_machine() {
    let cases = [starred_arithmetic(), starred_memory(), ruled_out()];
    for case in cases.iter().flatten() {
        check_interpreter(case);
        check_gates(case);
        let program = Program {
            memory: case.memory.to_vec(),
            bottom: 0,
            waits: case.waits.to_vec(),
            position: 0,
            start: case.start,
            count: 3,
        };
        check_agreement(&program, GateState::default(), 40);
    }
}

#[test]
fn last_word_runs_and_the_next_is_outside() {
    let mut memory = [0; 4];
    let at_3 = run(&mut memory, 0, &[], 0, machine(&[(0, 3)], "0000"), 1);
    assert_eq!((at_3.answer, at_3.ran), (Answer::Finished, 1));
    let at_4 = machine(&[(0, 4)], "0000");
    let result = run(&mut memory, 0, &[], 0, at_4, 1);
    assert_eq!((result.answer, result.ran), (OUTSIDE, 0));
    assert_eq!((result.machine, result.clocks), (at_4, 0));
}

#[test]
fn outside_leaves_the_machine_before_the_instruction() {
    // A is -(r1), address 3; B is -(r2), address 4, which is missing.
    let memory = [0x0003_3E51, 0, 0, 0];
    let start = machine(&[(1, 4), (2, 5)], "1010");
    let mut after = memory;
    let result = run(&mut after, 0, &[9, 9, 9], 0, start, 7);
    assert_eq!((result.answer, result.ran), (OUTSIDE, 0));
    assert_eq!((result.machine, result.clocks), (start, 0));
    assert_eq!(after, memory);
}

#[test]
fn b_must_be_present_even_where_nothing_is_stored() {
    // Move if C, with C 0, to the word r2 points at.
    let start = machine(&[(2, 4)], "0000");
    let result = run(&mut [0x0001_8141, 0, 0, 0], 0, &[], 0, start, 1);
    assert_eq!((result.answer, result.ran), (OUTSIDE, 0));
}

#[test]
fn a_run_of_none_is_finished_wherever_r0_is() {
    let start = machine(&[(0, 99)], "0110");
    let result = run(&mut [5], 0, &[1], 0, start, 0);
    assert_eq!((result.answer, result.machine), (Answer::Finished, start));
    assert_eq!((result.ran, result.clocks), (0, 0));
}
