//! The journal of a traverse (CR 11): which word, store or file finds no pair left, under
//! both rules; files that share addresses, and up to 64 of them.

use super::traverses::{check_rules, Tally};
use super::Check;
use crate::words::compute;
use reference::generate::journal::pairs_of_traverse;
use reference::generate::program::Program;
use reference::generate::traverse::TraverseCase;
use reference::{Machine, Operand, HALTING_BITS};
use Operand::{After, Direct, Indirect};

/// Words of memory, and where the code and its data are.
const LENGTH: u32 = 32;
const DATA: u32 = 8;

/// Where the code halts.
const HALTING: u32 = 5;

/// Operations.
const MOVE: u8 = 0;
const ADD: u8 = 3;

/// No flag is permitted.
const NONE: [bool; 4] = [false; 4];

pub fn check(tally: &mut Tally) -> Check {
    check_words(tally)?;
    check_each_file(tally)?;
    check_shared(tally)?;
    check_most_files(tally)?;
    check_long_files(tally)
}

/// Adds r1 to the word at r2, which steps up; goes back to the first word; a word that
/// halts; adds r1 to the word at r3; halts again.
fn empty() -> TraverseCase {
    let mut memory = vec![
        compute(ADD, [true; 4], Direct(1), After(2)),
        compute(MOVE, NONE, After(0), Direct(0)),
        // The word taken steps r0 up too, to 0.
        u32::MAX,
        HALTING_BITS,
        compute(ADD, NONE, Direct(1), Indirect(3)),
        HALTING_BITS,
    ];
    memory.extend((memory.len() as u32..LENGTH).map(|at| 100 + at));
    let program = Program {
        memory,
        bottom: 0,
        waits: Vec::new(),
        position: 0,
        start: Machine {
            registers: [99, 3, DATA, DATA, 4, 5, 6, 7],
            ..Machine::default()
        },
        count: 0,
    };
    TraverseCase::of_none(&program, 1)
}

/// Journals of every length up to more than what all files need.
fn check_journals(case: &mut TraverseCase, tally: &mut Tally) -> Check {
    for places in 0..=2 * pairs_of_traverse(case) + 3 {
        case.places = places;
        check_rules(case, tally)?;
    }
    Ok(())
}

/// One file of some words and stores: full at each of its words, at each of its stores, and
/// not at all; entered at code that finishes, halts or is not there.
fn check_words(tally: &mut Tally) -> Check {
    for words in [0, 1, 2, 3, 5] {
        let words: Vec<u32> = (0..words).map(|i| 7 * i).collect();
        for (entry, count) in [(0, 0), (0, 1), (0, 7), (4, 2), (HALTING, 1), (LENGTH, 1)] {
            for place in [DATA, DATA + 2, LENGTH - 5] {
                let mut case = empty();
                case.push(place, &words, entry, count);
                check_journals(&mut case, tally)?;
            }
        }
    }
    Ok(())
}

/// Five files, one of which has more words, or more stores, or is undone after a store; the
/// others lay a word and store once.
fn check_each_file(tally: &mut Tally) -> Check {
    let odd: [(&[u32], u32, u32); 5] = [
        (&[1, 2, 3, 4], 0, 1),
        (&[1], 0, 9),
        (&[1], 4, 2),
        (&[1, 2, 3], LENGTH, 1),
        (&[], 0, 0),
    ];
    for (words, entry, count) in odd {
        for at in 0..5 {
            let mut case = empty();
            for number in 0..5 {
                let place = DATA + 8 + 3 * number;
                if number == at {
                    case.push(place, words, entry, count);
                } else {
                    case.push(place, &[50 + number], 0, 1);
                }
            }
            check_journals(&mut case, tally)?;
        }
    }
    Ok(())
}

/// Later files store and lay where earlier ones did: the same word, over a store, and a
/// store over a word; also equal words, and with some of the data below the bottom.
fn check_shared(tally: &mut Tally) -> Check {
    for bottom in [0, DATA, DATA + 1] {
        let mut case = TraverseCase { bottom, ..empty() };
        let place = DATA + 1;
        case.push(place, &[1, 2], 4, 1);
        case.push(place + 1, &[2, 3], 0, 3);
        case.push(DATA + 2, &[100 + DATA + 2], 4, 1);
        case.push(place, &[9], 0, 5);
        case.push(place, &[9], 4, 1);
        check_journals(&mut case, tally)?;
        // The middle one undone, by its own journal or by a word that halts.
        case.files[2].count = 2;
        check_journals(&mut case, tally)?;
    }
    Ok(())
}

/// 64 files, each with a word and a store: at addresses of their own, at one for every
/// four, and all at the same.
fn check_most_files(tally: &mut Tally) -> Check {
    for shared in [1, 4, 64] {
        let mut case = empty();
        case.memory.resize(256, 5);
        for number in 0..64 {
            case.push(128 + number / shared, &[number], 4, 1);
        }
        let enough = 2 * pairs_of_traverse(&case);
        for places in (0..6).chain(enough - 4..enough + 4) {
            case.places = places;
            check_rules(&mut case, tally)?;
        }
    }
    Ok(())
}

/// Files of far more instructions than there could be before, all on the same few words.
fn check_long_files(tally: &mut Tally) -> Check {
    let mut case = empty();
    // Stays at its address.
    case.memory[0] = compute(ADD, [true; 4], Direct(1), Indirect(2));
    for number in 0..4 {
        case.push(DATA + 1 + number % 2, &[number], 0, 50_000);
    }
    for places in [0, 1, 2, 3, 4, 5, 6, 7, 400_000] {
        case.places = places;
        check_rules(&mut case, tally)?;
    }
    Ok(())
}
