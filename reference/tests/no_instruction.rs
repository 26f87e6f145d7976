//! Document 02, CR 5, in the interpreter and what rests on it: a word with bit 14 or
//! one of bits 20-31 is no instruction.

mod common;

use common::{machine, HALTING, NO_INSTRUCTION, OUTSIDE};
use reference::image::to_bytes;
use reference::ledger::ledger;
use reference::{file_run, run, Answer, FileAnswer, Machine};

/// Adds 1 to r1: 9 clocks.
const INCREMENT: u32 = 0x0001_0021;

/// All fields full: a move of 15 on r7, both operands then stepping up.
const ALL_FIELDS: u32 = 0x000F_BFFF;

/// Each halting bit alone, with an instruction's fields and with full fields.
fn halting_words() -> impl Iterator<Item = u32> {
    let fields = [0, INCREMENT, ALL_FIELDS];
    let words = HALTING.map(|bit| fields.map(|fields| bit | fields));
    words.into_iter().flatten().chain([u32::MAX])
}

#[test]
fn a_run_stops_before_it() {
    for word in halting_words() {
        let memory = [INCREMENT, INCREMENT, word, INCREMENT];
        let start = machine(&[(1, 5)], "1010");
        let mut after = memory;
        let result = run(&mut after, 0, &[3, 4, 900], 0, start, 9);
        assert_eq!(result.answer, NO_INSTRUCTION, "{word:08X}");
        assert_eq!((result.ran, result.clocks), (2, 9 + 3 + 9 + 4));
        assert_eq!(result.machine, machine(&[(0, 2), (1, 7)], "1010"));
        assert_eq!(after, memory);
    }
}

#[test]
fn a_run_stops_before_it_at_once() {
    for word in halting_words() {
        let start = machine(&[(0, 1), (7, 1)], "0101");
        let mut memory = [INCREMENT, word];
        let result = run(&mut memory, 0, &[6], 0, start, u32::MAX);
        assert_eq!(result.answer, NO_INSTRUCTION, "{word:08X}");
        assert_eq!((result.ran, result.clocks), (0, 0));
        assert_eq!((result.machine, memory), (start, [INCREMENT, word]));
    }
}

#[test]
fn a_word_of_all_the_other_bits_runs() {
    let result = run(&mut [ALL_FIELDS], 0, &[], 0, Machine::default(), 1);
    assert_eq!((result.answer, result.ran), (Answer::Finished, 1));
    assert_eq!(result.machine.registers[7], 2);
}

/// The word is not looked at unless it is due.
#[test]
fn a_run_that_ends_before_it_is_finished() {
    for word in halting_words() {
        let answer =
            |count| run(&mut [INCREMENT, word], 0, &[], 0, Machine::default(), count).answer;
        let answers = [0, 1, 2].map(answer);
        let due = [Answer::Finished, Answer::Finished, NO_INSTRUCTION];
        assert_eq!(answers, due, "{word:08X}");
        let at_once = run(&mut [word], 0, &[], 0, Machine::default(), 0);
        assert_eq!(at_once.answer, Answer::Finished);
    }
}

#[test]
fn a_missing_fetch_address_is_outside() {
    for word in halting_words() {
        for r0 in [2, 3, u32::MAX] {
            let start = machine(&[(0, r0)], "0000");
            let result = run(&mut [word; 2], 0, &[], 0, start, 1);
            assert_eq!((result.answer, result.ran), (OUTSIDE, 0));
            assert_eq!(result.machine, start);
        }
    }
}

/// A is -(r1) or (r1)+, B -(r2) or (r2)+: one of them or both are missing.
#[test]
fn its_operands_are_not_looked_at() {
    for fields in [0x0003_0251, 0x0003_0359] {
        for (r1, r2) in [(100, 1), (1, 100), (100, 200)] {
            let start = machine(&[(1, r1), (2, r2)], "0000");
            let stop = |word| run(&mut [word, 0], 0, &[], 0, start, 1);
            for bit in HALTING {
                let result = stop(fields | bit);
                assert_eq!((result.answer, result.ran), (NO_INSTRUCTION, 0));
                assert_eq!(result.machine, start);
            }
            assert_eq!(stop(fields).answer, OUTSIDE, "{r1} {r2}");
        }
    }
}

#[test]
fn data_may_be_any_word() {
    for word in halting_words() {
        // The constant behind the instruction to r2, then r2 to the word at r3.
        let mut memory = [0x0000_0058, word, 0x0000_0162, INCREMENT, 7];
        let result = run(&mut memory, 0, &[], 0, machine(&[(3, 4)], "0000"), 3);
        assert_eq!((result.answer, result.ran), (Answer::Finished, 3));
        assert_eq!((result.machine.registers[2], memory[4]), (word, word));
    }
}

/// r1 to the word at r2, which is the next one.
const STORE_AHEAD: u32 = 0x0000_0141;

#[test]
fn a_program_may_store_one_ahead() {
    for word in halting_words() {
        let start = machine(&[(1, word), (2, 1)], "0000");
        let memory = [STORE_AHEAD, INCREMENT, INCREMENT];
        let mut after = memory;
        let result = run(&mut after, 0, &[], 0, start, 3);
        assert_eq!((result.answer, result.ran), (NO_INSTRUCTION, 1));
        assert_eq!(result.clocks, 10);
        assert_eq!(after, [STORE_AHEAD, word, INCREMENT]);

        let mut undone = memory;
        let mut journal = [9; 8];
        let result = file_run(&mut undone, 0, &mut journal, start, 3);
        assert_eq!(result.answer, FileAnswer::Undone);
        assert_eq!((undone, result.machine), (memory, start));
        assert_eq!(journal, [1, INCREMENT, 9, 9, 9, 9, 9, 9]);
    }
}

#[test]
fn a_program_may_repair_one_ahead() {
    for word in halting_words() {
        let start = machine(&[(1, INCREMENT), (2, 1)], "0000");
        let mut memory = [STORE_AHEAD, word, 0];
        let result = run(&mut memory, 0, &[], 0, start, 2);
        assert_eq!((result.answer, result.ran), (Answer::Finished, 2));
        assert_eq!(result.machine.registers[1], INCREMENT + 1);

        let mut memory = [STORE_AHEAD, word, 0];
        let result = file_run(&mut memory, 0, &mut [0; 4], start, 2);
        assert_eq!(result.answer, FileAnswer::Finished);
        assert_eq!(memory, [STORE_AHEAD, INCREMENT, 0]);
    }
}

/// r1 twice onto the word at r2, then a word that halts.
#[test]
fn a_file_run_is_undone() {
    for word in halting_words() {
        let memory = [0x0003_0141, 0x0003_0141, word, 50];
        let start = machine(&[(1, 7), (2, 3)], "0011");
        let lend = |count| {
            let (mut memory, mut journal) = (memory, [9; 12]);
            let result = file_run(&mut memory, 0, &mut journal, start, count);
            (result, memory, journal)
        };
        let (result, left, journal) = lend(5);
        assert_eq!(result.answer, FileAnswer::Undone, "{word:08X}");
        assert_eq!((result.ran, result.pairs), (2, 1));
        assert_eq!((result.machine, left), (start, memory));
        assert_eq!(journal[..4], [3, 50, 9, 9]);

        let (result, left, _) = lend(2);
        assert_eq!((result.answer, result.ran), (FileAnswer::Finished, 2));
        assert_eq!(left[3], 64);
    }
}

#[test]
fn the_ledger_ends_with_halted() {
    for word in halting_words() {
        let text = |memory: &[u32]| ledger(&to_bytes(&Machine::default(), memory, 1).unwrap());
        let due = "step pc word clocks cvnz\n\
                   1 00000000 00010021 9 0000\n\
                   2 00000001 00050421 9 0001\n\
                   halted 2 18\n";
        assert_eq!(text(&[INCREMENT, 0x0005_0421, word, INCREMENT]), due);
        assert_eq!(text(&[word]), "step pc word clocks cvnz\nhalted 0 0\n");
        // The sixteen lines end before it.
        let mut seventeen = [INCREMENT; 17];
        seventeen[16] = word;
        assert!(text(&seventeen).ends_with("\nfinished 16 144\n"));
        seventeen[15] = word;
        assert!(text(&seventeen).ends_with("\nhalted 15 135\n"));
    }
}
