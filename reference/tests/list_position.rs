//! Document 02, CR 7, in the interpreter: a run starts at a position of the wait list and
//! returns the one after it.

mod common;

use common::{machine, NO_INSTRUCTION, OUTSIDE};
use reference::generate::program::{any_program, Program};
use reference::rng::Rng;
use reference::{gate_run, run, Answer, GateState, Machine, RunResult};

/// Adds 1 to r1: 9 clocks, 1 access.
const INCREMENT: u32 = 0x0001_0021;

/// Moves the word at r1 to itself: 11 clocks, 4 accesses.
const FOUR_ACCESSES: u32 = 0x0000_0129;

#[test]
fn each_position_by_hand() {
    let waits = [1, 20, 300, 4_000, 50_000];
    // The four entries from each position on.
    let dues = [4_321, 54_320, 54_301, 54_021, 50_321];
    for (position, due) in (0..).zip(dues) {
        let result = run(
            &mut [FOUR_ACCESSES; 2],
            0,
            &waits,
            position,
            Machine::default(),
            1,
        );
        assert_eq!((result.answer, result.ran), (Answer::Finished, 1));
        assert_eq!(result.clocks, 11 + due, "position {position}");
        assert_eq!(result.position, (position + 4) % 5);
    }
}

#[test]
fn a_list_of_one_and_an_empty_list_stay_at_0() {
    for (waits, clocks) in [(&[][..], 11), (&[6], 11 + 4 * 6)] {
        let result = run(&mut [FOUR_ACCESSES], 0, waits, 0, Machine::default(), 1);
        assert_eq!((result.clocks, result.position), (clocks, 0));
    }
}

/// It is that of the instructions that ran: the fetch that is missing or halts is not
/// in it, and neither is that of an instruction whose operand is missing.
#[test]
fn a_run_that_stops_returns_it_too() {
    let waits = [3, 4, 900, 7];
    // A and B are missing: (r7) and r1, r1 and (r7).
    let words = [
        (1 << 14, NO_INSTRUCTION),
        (0x0000_002F, OUTSIDE),
        (0x0000_01E1, OUTSIDE),
    ];
    let start = machine(&[(7, 99)], "0000");
    for (word, answer) in words {
        for (position, clocks) in [(0, 7), (1, 904), (2, 907), (3, 10)] {
            let mut memory = [INCREMENT, INCREMENT, word];
            let result = run(&mut memory, 0, &waits, position, start, 9);
            assert_eq!((result.answer, result.ran), (answer, 2));
            assert_eq!(result.clocks, 2 * 9 + clocks);
            assert_eq!(result.position, (position + 2) % 4);
        }
        let at_once = machine(&[(0, 2), (7, 99)], "0000");
        let result = run(&mut [0, 0, word], 0, &waits, 3, at_once, 9);
        assert_eq!((result.answer, result.ran), (answer, 0));
        assert_eq!((result.clocks, result.position), (0, 3));
    }
    let missing = run(&mut [INCREMENT], 0, &waits, 3, start, 9);
    assert_eq!((missing.answer, missing.position), (OUTSIDE, 0));
}

#[test]
fn a_run_of_no_instructions_leaves_it() {
    for position in 0..4 {
        let result = run(&mut [0], 0, &[9; 4], position, Machine::default(), 0);
        assert_eq!((result.clocks, result.position), (0, position));
    }
}

/// A run of so many instructions from where another left off. Of none it is finished,
/// also where the other had stopped.
fn go_on(program: &Program, memory: &mut [u32], from: RunResult, count: u32) -> RunResult {
    let result = run(
        memory,
        program.bottom,
        &program.waits,
        from.position,
        from.machine,
        count,
    );
    let answer = if count == 0 {
        from.answer
    } else {
        result.answer
    };
    RunResult {
        answer,
        ran: from.ran + result.ran,
        clocks: from.clocks + result.clocks,
        ..result
    }
}

/// In two parts, wherever the first ends, and in single instructions.
#[test]
fn runs_go_on_from_it() {
    let mut rng = Rng::new(78);
    for _ in 0..10_000 {
        let program = any_program(&mut rng);
        let start = RunResult {
            answer: Answer::Finished,
            machine: program.start,
            ran: 0,
            clocks: 0,
            position: program.position,
        };
        let mut whole_memory = program.memory.clone();
        let whole = go_on(&program, &mut whole_memory, start, program.count);

        let mut memory = program.memory.clone();
        let first = rng.between(0, program.count as usize) as u32;
        let part = go_on(&program, &mut memory, start, first);
        let both = go_on(&program, &mut memory, part, program.count - first);
        assert_eq!((both, &memory), (whole, &whole_memory), "{program:X?}");

        let mut memory = program.memory.clone();
        let single = |part, _| go_on(&program, &mut memory, part, 1);
        let singles = (0..program.count).fold(start, single);
        assert_eq!((singles, memory), (whole, whole_memory), "{program:X?}");
    }
}

/// Between instructions both engines are at one position.
#[test]
fn the_gate_machine_is_at_the_same_position() {
    let mut rng = Rng::new(79);
    for _ in 0..10_000 {
        let program = any_program(&mut rng);
        let Program {
            memory,
            bottom,
            waits,
            position,
            start,
            count,
        } = &program;
        let ran = run(
            &mut memory.clone(),
            *bottom,
            waits,
            *position,
            *start,
            *count,
        );
        let state = program.gate_start(GateState::default());
        let gates = gate_run(&mut memory.clone(), *bottom, waits, &[], state, ran.clocks);
        assert_eq!(gates.state.position, ran.position, "{program:X?}");
    }
}
