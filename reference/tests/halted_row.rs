//! Document 02, CR 5, in the gate machine: it completes the read of a word that is no
//! instruction, enters row 12 and stays there.

mod common;

use common::{machine, HALTING};
use reference::generate::program::any_program;
use reference::generate::state::gate_state;
use reference::rng::Rng;
use reference::{gate_clock, gate_run, GateResult, GateState, Refusal};

/// Adds 1 to r1: 9 clocks.
const INCREMENT: u32 = 0x0001_0021;

/// No halting bit in any latch, so that what a row latches is seen.
fn start() -> GateState {
    GateState {
        instruction: 1,
        address: 2,
        a: 3,
        b: 4,
        result: 5,
        ..GateState::start(machine(&[(1, 6)], "0110"))
    }
}

/// A row 1 about to read the word at 0, whose entry of the wait list is `wait`.
fn check_read(word: u32, wait: u16) {
    let waits = [8, wait, 8];
    let mut memory = [word, 7];
    let mut state = GateState {
        position: 1,
        ..start()
    };
    let mut due = state;
    (due.row, due.address) = (1, 0);
    let mut clock = |due: GateState| {
        assert_eq!(gate_clock(&mut memory, 0, &waits, &mut state), Ok(0));
        assert_eq!(state, due, "{word:08X} with a wait of {wait}");
    };
    clock(due);
    (due.position, due.begun) = (2, true);
    for left in (1..=wait).rev() {
        due.left = left;
        clock(due);
    }
    (due.begun, due.left) = (false, 0);
    (due.row, due.instruction) = (12, word);
    for _ in 0..5 {
        clock(due);
    }
    assert_eq!(memory, [word, 7]);
}

#[test]
fn the_read_is_completed_with_its_wait() {
    for bit in HALTING {
        for fields in [0, INCREMENT, 0x000F_BFFF] {
            for wait in [0, 1, 2, 5] {
                check_read(bit | fields, wait);
            }
        }
    }
    check_read(u32::MAX, u16::MAX);
}

/// The interpreter's total counts neither row 0 nor the read; the machine's r0 and
/// the finished instructions stay, the list position moves.
#[test]
fn clocks_up_to_the_halt() {
    for bit in HALTING {
        let word = INCREMENT | bit;
        let waits = [2, 3, 9];
        let after = |clocks| gate_run(&mut [INCREMENT, word], 0, &waits, &[], start(), clocks);
        let total = 9 + 2;
        assert_eq!((after(total).finished, after(total).state.row), (1, 0));
        assert_eq!(after(total).state.position, 1);
        assert_eq!(after(total + 1).state.row, 1);
        let halt = total + 1 + 1 + 3;
        assert_eq!(after(halt - 1).state.row, 1);
        assert_eq!(after(halt - 1).state.instruction, INCREMENT);
        let due = GateResult {
            answer: Ok(()),
            state: GateState {
                instruction: word,
                address: 1,
                a: 6,
                b: 6,
                result: 7,
                row: 12,
                position: 2,
                ..GateState::start(machine(&[(0, 1), (1, 7)], "0110"))
            },
            finished: 1,
        };
        for clocks in [halt, halt + 1, halt + 2, halt + 1_000, u64::MAX] {
            assert_eq!(after(clocks), due, "{clocks}");
        }
    }
}

#[test]
fn an_access_begun_before_the_loan_is_completed_too() {
    let lent = GateState {
        row: 1,
        address: 1,
        begun: true,
        left: 2,
        ..start()
    };
    for bit in HALTING {
        let after = |clocks| gate_run(&mut [0, bit], 0, &[], &[], lent, clocks).state;
        assert_eq!((after(1).row, after(1).left), (1, 1));
        let due = GateState {
            row: 12,
            instruction: bit,
            address: 1,
            ..start()
        };
        assert_eq!(after(2), due);
    }
}

#[test]
fn an_absent_word_is_not_acknowledged_and_does_not_halt() {
    for bit in HALTING {
        let lent = GateState {
            row: 1,
            instruction: bit,
            address: 2,
            ..start()
        };
        let result = gate_run(&mut [bit; 2], 0, &[1], &[], lent, u64::MAX);
        assert_eq!((result.answer, result.state), (Ok(()), lent));
    }
}

/// From any latches, registers and list position, in one run, in single clocks and
/// in none.
#[test]
fn row_12_changes_nothing() {
    let mut rng = Rng::new(38);
    for _ in 0..2_000 {
        let program = any_program(&mut rng);
        let (words, waits) = (program.memory, program.waits);
        let lent = GateState {
            row: 12,
            begun: false,
            left: 0,
            ..gate_state(&mut rng, words.len(), waits.len())
        };
        let mut memory = words.clone();
        for clocks in [0, 1, 2, u64::MAX] {
            let result = gate_run(&mut memory, 0, &waits, &[], lent, clocks);
            assert_eq!((result.answer, result.finished), (Ok(()), 0));
            assert_eq!(result.state, lent);
        }
        let mut state = lent;
        assert_eq!(gate_clock(&mut memory, 0, &waits, &mut state), Ok(0));
        assert_eq!((state, memory), (lent, words));
    }
}

/// Reason 4 begins above row 12, which is no access.
#[test]
fn row_12_is_taken_and_row_13_refused() {
    let answer = |row, begun, left| {
        let mut state = GateState {
            row,
            begun,
            left,
            ..start()
        };
        let lent = state;
        let run = gate_run(&mut [1, 2], 0, &[], &[], lent, 1);
        assert_eq!(run.state, lent);
        let clock = gate_clock(&mut [1, 2], 0, &[], &mut state);
        assert_eq!((clock.map(|_| ()), state), (run.answer, lent));
        run.answer
    };
    let refused = Err(Refusal::BadGateState);
    assert_eq!(answer(12, false, 0), Ok(()));
    for row in [13, 14, u8::MAX] {
        assert_eq!(answer(row, false, 0), refused);
    }
    for left in [0, 1, u16::MAX] {
        assert_eq!(answer(12, true, left), refused);
    }
    assert_eq!(answer(12, false, 1), refused);
}

/// Only the word read in row 1 halts: the other rows follow the table whatever the
/// instruction latch holds.
#[test]
fn a_halting_word_in_the_latch_has_no_effect() {
    let mut rng = Rng::new(39);
    for _ in 0..20_000 {
        let program = any_program(&mut rng);
        let (words, waits) = (program.memory, program.waits);
        let mut lent = gate_state(&mut rng, words.len(), waits.len());
        let fields = !HALTING.iter().fold(0, |bits, bit| bits | bit);
        let [halting, clear] = [rng.pick(&HALTING), 0].map(|bit| {
            lent.instruction = lent.instruction & fields | bit;
            let mut memory = words.clone();
            let mut result = gate_run(&mut memory, 0, &waits, &[], lent, 1);
            let read = lent.row == 1 && result.state.row != 1;
            if !read {
                assert_eq!(result.state.instruction & !fields, bit);
                result.state.instruction &= fields;
            }
            (result, memory)
        });
        assert_eq!(halting, clear);
    }
}

#[test]
fn a_program_may_store_or_repair_one_ahead() {
    // r1 to the word at r2, which is the next one.
    let store_ahead = 0x0000_0141;
    for bit in HALTING {
        let halting = INCREMENT | bit;
        for (stored, lying, row, finished) in
            [(halting, INCREMENT, 12, 1), (INCREMENT, halting, 0, 2)]
        {
            let machine = machine(&[(1, stored), (2, 1)], "0000");
            let mut memory = [store_ahead, lying];
            // The store takes 10 clocks; then 2 up to the halt, or 9 for the instruction.
            let clocks = if row == 12 { 12 } else { 19 };
            let result = gate_run(&mut memory, 0, &[], &[], GateState::start(machine), clocks);
            assert_eq!((result.state.row, result.finished), (row, finished));
            assert_eq!(memory, [store_ahead, stored]);
        }
    }
}
