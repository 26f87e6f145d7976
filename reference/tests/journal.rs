//! The journal of a file run (CR 11): one pair for each distinct address, and when it is full.

mod common;

use common::machine;
use reference::{file_run, FileAnswer, FileResult, Machine};

const SENTINEL: u32 = 0x5A5A_5A5A;

/// Adds r1 to the word at r2, at r3, and at r2, which then steps up; adds 1 to r1.
const ADD_TO_R2: u32 = 0x0003_0141;
const ADD_TO_R3: u32 = 0x0003_0161;
const ADD_AFTER: u32 = 0x0003_0341;
const INCREMENT: u32 = 0x0001_0021;

/// Takes r0 to the word behind it, plus one.
const JUMP: u32 = 0x0000_0018;

/// What a file run returned and left.
#[derive(Clone, Debug, PartialEq, Eq)]
struct Left {
    result: FileResult,
    memory: Vec<u32>,
    journal: Vec<u32>,
}

fn go(memory: &[u32], bottom: u32, places: usize, start: Machine, count: u32) -> Left {
    let (mut memory, mut journal) = (memory.to_vec(), vec![SENTINEL; places]);
    let result = file_run(&mut memory, bottom, &mut journal, start, count);
    Left {
        result,
        memory,
        journal,
    }
}

/// r1 is 7, r2 the address given; r3 points one past it, r4 past every memory here.
fn start(r2: u32) -> Machine {
    machine(&[(1, 7), (2, r2), (3, r2 + 1), (4, u32::MAX)], "1010")
}

impl Left {
    fn counts(&self) -> (FileAnswer, u32, u32) {
        (self.result.answer, self.result.ran, self.result.pairs)
    }

    /// Its pairs are these, no other place was written, and, unless it finished, memory and
    /// machine are those lent.
    fn check(&self, pairs: &[u32], memory: &[u32], start: Machine) {
        let (filled, unused) = self.journal.split_at(pairs.len());
        assert_eq!(filled, pairs);
        assert_eq!(2 * self.result.pairs as usize, pairs.len());
        assert!(unused.iter().all(|&word| word == SENTINEL), "{self:X?}");
        if self.result.answer != FileAnswer::Finished {
            assert_eq!((&self.memory[..], self.result.machine), (memory, start));
        }
    }
}

/// Two addresses in turn: the words from before their first stores, in that order.
#[test]
fn one_pair_for_each_address() {
    let code = [ADD_TO_R3, ADD_TO_R2, ADD_TO_R3, ADD_TO_R2, ADD_TO_R3];
    let memory = [&code[..], &[50, 60]].concat();
    let due = [6, 60, 5, 50];
    for (count, pairs) in [(0, 0), (1, 1), (2, 2), (3, 2), (5, 2)] {
        for places in [4, 5, 9] {
            let left = go(&memory, 0, places, start(5), count);
            assert_eq!(left.counts(), (FileAnswer::Finished, count, pairs));
            left.check(&due[..2 * pairs as usize], &memory, start(5));
        }
    }
    assert_eq!(go(&memory, 0, 4, start(5), 5).memory[5..], [64, 81]);
}

/// Each store is to an address of its own: it is full before the first that finds no pair,
/// and a run whose instructions are all done is finished.
#[test]
fn journals_of_few_places() {
    let memory = [vec![ADD_AFTER; 5], vec![10, 11, 12, 13, 14]].concat();
    let due = [5, 10, 6, 11, 7, 12, 8, 13, 9, 14];
    for places in [0, 1, 2, 3, 4, 5, 7, 8, 9, 10, 11] {
        let there = places as u32 / 2;
        for count in 0..=5 {
            let left = go(&memory, 0, places, start(5), count);
            let due_counts = if count > there {
                (FileAnswer::JournalFull, there, there)
            } else {
                (FileAnswer::Finished, count, count)
            };
            assert_eq!(left.counts(), due_counts, "{places} places, {count}");
            left.check(&due[..2 * due_counts.2 as usize], &memory, start(5));
        }
    }
}

/// The last of two stores, as it is and with a word missing or a halting bit; with one pair
/// it is full, or it is not even asked.
#[test]
fn a_missing_word_comes_first() {
    let full = FileAnswer::JournalFull;
    let lasts = [
        (ADD_TO_R3, full),
        // A is absent: (r4), (r4)+.
        (0x0003_016C, FileAnswer::Undone),
        (0x0003_017C, FileAnswer::Undone),
        // B is absent: (r4), (r4)+; -(r0) and -(r3) are there, and the first is noted.
        (0x0003_0181, FileAnswer::Undone),
        (0x0003_0381, FileAnswer::Undone),
        (0x0003_0201, full),
        (0x0003_0261, FileAnswer::Finished),
        (ADD_TO_R3 | 1 << 14, FileAnswer::Undone),
        (ADD_TO_R3 | 1 << 31, FileAnswer::Undone),
    ];
    for (last, due) in lasts {
        let memory = [ADD_TO_R2, last, 50, 60];
        let left = go(&memory, 0, 3, start(2), 2);
        let ran = if due == FileAnswer::Finished { 2 } else { 1 };
        assert_eq!(left.counts(), (due, ran, 1), "{last:08X}");
        left.check(&[2, 50], &memory, start(2));
    }
    // The fetch is absent, with the only pair used.
    let left = go(&[ADD_TO_R2], 0, 2, start(0), 2);
    assert_eq!(left.counts(), (FileAnswer::Undone, 1, 1));
    left.check(&[0, ADD_TO_R2], &[ADD_TO_R2], start(0));
}

/// With no pair at all, and after the only pair is used.
#[test]
fn what_needs_no_pair() {
    // Moves r1 to (r3) if: C, no C, and always; the flags are C and N.
    let [if_carry, if_not, always] = [0x0001_8161, 0x0000_8161, 0x0008_8161];
    let cases = [
        (INCREMENT, 0, FileAnswer::Finished),
        (if_not, 0, FileAnswer::Finished),
        (if_carry, 0, FileAnswer::JournalFull),
        (always, 0, FileAnswer::JournalFull),
        (always, 3, FileAnswer::JournalFull),
        (always, 4, FileAnswer::Finished),
    ];
    for (word, bottom, due) in cases {
        // None at all: (r3) is 3.
        let memory = [word, INCREMENT, 50, 60];
        let ran = if due == FileAnswer::Finished { 2 } else { 0 };
        for places in [0, 1] {
            let left = go(&memory, bottom, places, start(2), 2);
            assert_eq!(left.counts(), (due, ran, 0), "{word:08X}");
            left.check(&[], &memory, start(2));
        }
        // The only one is that of 4, to which the first word stores.
        let memory = [0x0003_01A1, word, INCREMENT, 60, 70];
        let from = machine(&[(1, 7), (3, 3), (5, 4)], "1010");
        let ran = if due == FileAnswer::Finished { 3 } else { 1 };
        let left = go(&memory, bottom, 2, from, 3);
        assert_eq!(left.counts(), (due, ran, 1), "{word:08X}");
        left.check(&[4, 70], &memory, from);
    }
}

/// Stores of the word that is there already: `move (r2),(r2)`.
#[test]
fn an_equal_word_needs_a_pair() {
    let memory = [0x0000_014A, 0x0000_014A, 50];
    for (places, due) in [
        (1, (FileAnswer::JournalFull, 0, 0)),
        (2, (FileAnswer::Finished, 2, 1)),
    ] {
        let left = go(&memory, 0, places, start(2), 2);
        assert_eq!(left.counts(), due);
        left.check(&[2, 50][..2 * due.2 as usize], &memory, start(2));
    }
}

/// A pair is there as soon as its store is: the store before was below the bottom, or its
/// word is what runs next.
#[test]
fn stores_into_the_code() {
    // Stores r1, INCREMENT, over the next word; then adds to (r3).
    let memory = [0x0000_0141, 1 << 14, ADD_TO_R3, 9];
    let from = machine(&[(1, INCREMENT), (2, 1), (3, 3)], "0000");
    let left = go(&memory, 0, 3, from, 3);
    assert_eq!(left.counts(), (FileAnswer::JournalFull, 2, 1));
    left.check(&[1, 1 << 14], &memory, from);
    // Below the bottom the old word stays, and halts.
    let left = go(&memory, 2, 3, from, 3);
    assert_eq!(left.counts(), (FileAnswer::Undone, 1, 0));
    left.check(&[], &memory, from);
}

/// Any count is taken: one accumulator, and one pair, for 300,000 instructions.
#[test]
fn far_more_instructions_than_pairs() {
    let memory = [ADD_TO_R2, JUMP, u32::MAX, 40];
    for count in [65_536, 65_537, 131_073, 300_000] {
        let left = go(&memory, 0, 2, start(3), count);
        assert_eq!(left.counts(), (FileAnswer::Finished, count, 1));
        left.check(&[3, 40], &memory, start(3));
        assert_eq!(left.memory[3], 40 + 7 * count.div_ceil(2));
        let none = go(&memory, 0, 1, start(3), count);
        assert_eq!(none.counts(), (FileAnswer::JournalFull, 0, 0));
    }
}

/// 100,000 addresses, gone through one after the other: enough pairs, and one fewer.
#[test]
fn many_addresses() {
    const ADDRESSES: u32 = 100_000;
    let mut memory = vec![ADD_AFTER, JUMP, u32::MAX];
    memory.extend(5..5 + ADDRESSES);
    let count = 2 * ADDRESSES;
    let pairs: Vec<u32> = (3..3 + ADDRESSES).flat_map(|at| [at, at + 2]).collect();
    let left = go(&memory, 0, pairs.len(), start(3), count);
    assert_eq!(left.counts(), (FileAnswer::Finished, count, ADDRESSES));
    left.check(&pairs, &memory, start(3));
    let left = go(&memory, 0, pairs.len() - 1, start(3), count);
    let last = ADDRESSES - 1;
    assert_eq!(left.counts(), (FileAnswer::JournalFull, count - 2, last));
    left.check(&pairs[..pairs.len() - 2], &memory, start(3));
}

/// The very last word of the longest memory, and of the shortest.
#[test]
fn ends_of_memory() {
    let mut memory = vec![0; 16_777_216];
    memory[0] = ADD_TO_R2;
    let last = 16_777_215;
    let from = machine(&[(1, 7), (2, last)], "0000");
    let left = go(&memory, last, 2, from, 1);
    assert_eq!(left.counts(), (FileAnswer::Finished, 1, 1));
    assert_eq!(
        (left.journal, left.memory[last as usize]),
        (vec![last, 0], 7)
    );
    let left = go(&[ADD_TO_R2], 0, 2, machine(&[(1, 1)], "0000"), 1);
    assert_eq!(left.journal, [0, ADD_TO_R2]);
    assert_eq!(left.memory, [ADD_TO_R2 + 1]);
}
