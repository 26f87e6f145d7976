//! The journal of a traverse (CR 11): of each file under version 1, of all of them under
//! version 2, and words that do not all fit.

mod common;

use common::machine;
use reference::generate::program::Program;
use reference::generate::traverse::TraverseCase;
use reference::{traverse, TraverseAnswer, TraverseResult};

const SENTINEL: u32 = 0x5A5A_5A5A;

/// Adds r1 to the word at r2; adds 1 to r1; no instruction.
const ADD_TO: u32 = 0x0003_0141;
const INCREMENT: u32 = 0x0001_0021;
const HALT: u32 = 1 << 14;

/// Of the memory: where the data begin, word i being 100 + i, and how many words there are.
const DATA: u32 = 4;
const LENGTH: u32 = 16;

/// What a traverse returned and left.
struct Left {
    result: TraverseResult,
    memory: Vec<u32>,
    journal: Vec<u32>,
}

impl Left {
    fn pairs(&self) -> &[u32] {
        &self.journal[..2 * self.result.pairs as usize]
    }

    fn counts(&self) -> (TraverseAnswer, u32, u32) {
        (self.result.answer, self.result.ran, self.result.pairs)
    }
}

fn go(case: &TraverseCase) -> Left {
    let (mut memory, mut journal) = (case.memory.clone(), vec![SENTINEL; case.places]);
    let result = traverse(
        &mut memory,
        case.bottom,
        &mut journal,
        &case.words,
        &case.files,
        case.start,
        case.version,
    );
    Left {
        result,
        memory,
        journal,
    }
}

/// No files yet: adds 1 to word 4 and then to r1, and halts.
fn empty(version: u32, places: usize) -> TraverseCase {
    let mut memory = vec![ADD_TO, INCREMENT, HALT, HALT];
    memory.extend((DATA..LENGTH).map(|at| 100 + at));
    let program = Program {
        memory,
        bottom: 0,
        waits: vec![],
        position: 0,
        start: machine(&[(0, 77), (1, 1), (2, DATA)], "1010"),
        count: 0,
    };
    let mut case = TraverseCase::of_none(&program, version);
    case.places = places;
    case
}

/// Adds a file, leaving the places as they are.
fn push(case: &mut TraverseCase, place: u32, words: &[u32], entry: u32, count: u32) {
    let places = case.places;
    case.push(place, words, entry, count);
    case.places = places;
}

/// Memory and machine of the start, and these pairs, and no other place written.
fn check_start(case: &TraverseCase, left: &Left, pairs: &[u32]) {
    assert_eq!(left.memory, case.memory);
    assert_eq!(left.result.machine, case.start);
    assert_eq!(left.pairs(), pairs);
    let unused = &left.journal[pairs.len()..];
    assert!(unused.iter().all(|&word| word == SENTINEL));
}

/// Four words with journals of every length: full before the first, a middle and the last
/// of them, at the store after them, and not at all.
#[test]
fn words_that_do_not_fit() {
    let due = [8, 108, 9, 109, 10, 110, 11, 111, DATA, 104];
    for places in 0..=13 {
        let there = places as u32 / 2;
        for version in [1, 2] {
            let mut case = empty(version, places);
            push(&mut case, 8, &[1, 2, 3, 4], 0, 2);
            let left = go(&case);
            if there >= 5 {
                assert_eq!((left.result.ran, left.pairs()), (2, &due[..]));
                assert_eq!(left.memory[4..6], [105, 105]);
                assert_eq!(left.memory[8..13], [1, 2, 3, 4, 112]);
                continue;
            }
            let full = [TraverseAnswer::Marked(1), TraverseAnswer::JournalFull(0)];
            let answer = full[version as usize - 1];
            // Its program is not run, or not beyond the store.
            assert_eq!(left.counts(), (answer, 0, there), "{places} places");
            check_start(&case, &left, &due[..2 * there as usize]);
        }
    }
}

/// Whatever it is entered at, a file whose words do not fit is of 0 instructions, and not
/// one that is undone: its program would halt, or be outside, or finish at once.
#[test]
fn a_file_whose_words_do_not_fit_is_not_run() {
    for (entry, count) in [(0, 5), (2, 1), (LENGTH, 1), (u32::MAX, 9), (0, 0)] {
        for version in [1, 2] {
            let mut case = empty(version, 4);
            push(&mut case, DATA, &[], 0, 2);
            push(&mut case, DATA, &[7, 8, 9], entry, count);
            let left = go(&case);
            let (answer, pairs): (_, &[u32]) = match version {
                1 => (TraverseAnswer::Marked(0b10), &[4, 105, 5, 105]),
                _ => (TraverseAnswer::JournalFull(1), &[4, 104, 5, 105]),
            };
            assert_eq!(left.counts(), (answer, 0, 2));
            assert_eq!(left.pairs(), pairs);
            let registers = [(0, 2), (1, 2), (2, DATA)];
            match version {
                // The first file stands, and what it left is where the second goes back to.
                1 => assert_eq!(
                    (left.memory[4], left.result.machine),
                    (105, machine(&registers, "1010"))
                ),
                _ => check_start(&case, &left, pairs),
            }
        }
    }
}

/// A word equal to the one that is there needs a pair.
#[test]
fn an_equal_word_needs_a_pair() {
    for (places, answer, pairs) in [
        (1, TraverseAnswer::JournalFull(0), 0),
        (2, TraverseAnswer::Finished, 1),
    ] {
        let mut case = empty(2, places);
        push(&mut case, DATA, &[104], 0, 0);
        assert_eq!(go(&case).counts(), (answer, 0, pairs));
        case.version = 1;
        let answer = TraverseAnswer::Marked(u64::from(places == 1));
        assert_eq!(go(&case).counts(), (answer, 0, pairs));
    }
}

/// Under version 1 each file has all pairs, and puts its own over those before; under
/// version 2 they go on.
#[test]
fn files_and_their_pairs() {
    for places in [6, 7] {
        let mut case = empty(1, places);
        push(&mut case, 8, &[1, 2], 0, 1);
        push(&mut case, 10, &[3], 0, 1);
        push(&mut case, 12, &[], 1, 1);
        let left = go(&case);
        // The last file stores nothing, so that no pair is filled; the places keep what
        // the second and, past it, the first file put there.
        assert_eq!(left.counts(), (TraverseAnswer::Marked(0), 1, 0));
        assert_eq!(left.journal[..6], [10, 110, DATA, 105, DATA, 104]);
        assert!(left.journal[6..].iter().all(|&word| word == SENTINEL));
        case.files.pop();
        let left = go(&case);
        assert_eq!(left.pairs(), [10, 110, DATA, 105]);
        assert_eq!(left.memory[4], 106);
        // One place of the journal fewer than four pairs, of which it needs these.
        case.version = 2;
        let left = go(&case);
        assert_eq!(left.counts(), (TraverseAnswer::JournalFull(1), 0, 3));
        check_start(&case, &left, &[8, 108, 9, 109, DATA, 104]);
        case.places = 8;
        let left = go(&case);
        assert_eq!(left.counts(), (TraverseAnswer::Finished, 1, 4));
        assert_eq!(left.pairs(), [8, 108, 9, 109, DATA, 104, 10, 110]);
    }
}

/// A later file stores and lays where an earlier one did: no pair more under version 2,
/// and those of its own under version 1.
#[test]
fn later_files_at_the_same_addresses() {
    let mut case = empty(2, 4);
    push(&mut case, DATA + 1, &[1], 0, 1);
    for _ in 0..20 {
        push(&mut case, DATA + 1, &[2], 0, 1);
        push(&mut case, DATA, &[3], 0, 1);
    }
    let left = go(&case);
    assert_eq!(left.counts(), (TraverseAnswer::Finished, 1, 2));
    assert_eq!(left.pairs(), [DATA + 1, 105, DATA, 104]);
    case.version = 1;
    let left = go(&case);
    assert_eq!(left.counts(), (TraverseAnswer::Marked(0), 1, 1));
    // The file before stored 104 and its word; this one's word lies over that.
    assert_eq!(left.journal, [DATA, 5, DATA, 4]);
}

/// A full file among others under version 1: marked, gone back to before its words, and
/// the next has the journal to itself.
#[test]
fn a_full_file_among_others() {
    let mut case = empty(1, 5);
    push(&mut case, 9, &[1], 0, 2);
    push(&mut case, 9, &[2, 3, 4], 0, 2);
    push(&mut case, 10, &[5, 6], 0, 2);
    push(&mut case, 11, &[7], 0, 2);
    let left = go(&case);
    assert_eq!(left.counts(), (TraverseAnswer::Marked(0b0110), 2, 2));
    assert_eq!(left.memory[9..13], [1, 110, 7, 112]);
    // r1 is 1 in the first file and 2 in the last; both add it.
    assert_eq!(left.memory[4], 107);
    let registers = [(0, 2), (1, 3), (2, DATA)];
    assert_eq!(left.result.machine, machine(&registers, "1010"));
    assert_eq!(left.journal, [11, 111, DATA, 105, SENTINEL]);
}

/// The last file is full, or undone: its pairs are the ones returned.
#[test]
fn the_last_file_decides_on_the_pairs() {
    for (words, entry, due) in [
        (&[2, 3, 4][..], 0, (0b10, 0, 2)),
        (&[2], 0, (0b10, 2, 2)),
        (&[2], 2, (0b10, 0, 1)),
        (&[], 2, (0b10, 0, 0)),
    ] {
        let mut case = empty(1, 4);
        push(&mut case, 9, &[1], 0, 2);
        push(&mut case, 9, words, entry, 3);
        let left = go(&case);
        let (undone, ran, pairs) = due;
        assert_eq!(left.counts(), (TraverseAnswer::Marked(undone), ran, pairs));
        let mut places = [9, 109, DATA, 104];
        let second = [
            [9, 1],
            if words.len() == 3 {
                [10, 110]
            } else {
                [DATA, 105]
            },
        ]
        .concat();
        let filled = 2 * pairs as usize;
        places[..filled].copy_from_slice(&second[..filled]);
        assert_eq!(left.journal, places);
        assert_eq!(left.memory[9], 1);
    }
}

/// At a store of the second file, with the first's count no longer given.
#[test]
fn full_at_a_store_of_a_later_file() {
    let mut case = empty(2, 6);
    push(&mut case, 9, &[1], 0, 2);
    // r2 goes up first: inc r2,r2.
    push(&mut case, 9, &[0x0001_0042, ADD_TO], 9, 2);
    assert_eq!(go(&case).counts(), (TraverseAnswer::JournalFull(1), 1, 3));
    case.places = 8;
    assert_eq!(go(&case).counts(), (TraverseAnswer::Finished, 2, 4));
    // Under version 1 the second needs three pairs alone.
    case.version = 1;
    case.places = 6;
    assert_eq!(go(&case).counts(), (TraverseAnswer::Marked(0), 2, 3));
    case.places = 5;
    assert_eq!(go(&case).counts(), (TraverseAnswer::Marked(0b10), 1, 2));
}

/// Stores below the bottom need none, however many files have them.
#[test]
fn stores_below_the_bottom() {
    for version in [1, 2] {
        let mut case = empty(version, 1);
        case.bottom = DATA + 1;
        for _ in 0..64 {
            push(&mut case, 0, &[], 0, 2);
        }
        let due = [TraverseAnswer::Marked(0), TraverseAnswer::Finished];
        let left = go(&case);
        assert_eq!(left.counts(), (due[version as usize - 1], 2, 0));
        case.bottom = DATA;
        let due = [
            TraverseAnswer::Marked(u64::MAX),
            TraverseAnswer::JournalFull(0),
        ];
        let left = go(&case);
        assert_eq!(left.counts(), (due[version as usize - 1], 0, 0));
        check_start(&case, &left, &[]);
    }
}

/// More instructions than 5 let a traverse have, on one pair.
#[test]
fn far_more_instructions_than_pairs() {
    for version in [1, 2] {
        let mut case = empty(version, 2);
        // Adds, and goes back: the word taken steps r0 up too, to 8.
        push(&mut case, 8, &[], 0, 0);
        case.memory[8..11].copy_from_slice(&[ADD_TO, 0x0000_0018, 7]);
        for _ in 0..3 {
            push(&mut case, 8, &[], 8, 100_000);
        }
        let left = go(&case);
        let due = [TraverseAnswer::Marked(0), TraverseAnswer::Finished];
        assert_eq!(left.counts(), (due[version as usize - 1], 100_000, 1));
        assert_eq!(left.memory[4], 104 + 150_000);
        let before = [104 + 100_000, 104];
        assert_eq!(left.pairs(), [DATA, before[version as usize - 1]]);
    }
}
