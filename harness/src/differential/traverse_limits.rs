//! Long traverses, with journals around what they need; at the end of the longest memory;
//! and with flags that are lent as 9 (CR 1, CR 11).

use super::traverses::{check_rules, Tally, RULES};
use super::{expected, proved, Check};
use crate::codes::JOURNAL_FULL;
use crate::words::compute;
use fm8502::library::{self, DONE, MACHINE_SIZE, STOPPED};
use reference::generate::journal::pairs_of_traverse;
use reference::generate::program::Program;
use reference::generate::traverse::TraverseCase;
use reference::refusal::MOST_WORDS;
use reference::rng::Rng;
use reference::{Machine, Operand, HALTING_BITS};

/// Where the code is: a store that steps r4 up, a jump back to it, and a word that halts.
const STORE: u32 = 0;
const HALT: u32 = 3;

/// Words of memory: the stores go to the words after this.
const STORES: u32 = 1_000;
const LENGTH: u32 = STORES + 65_536;

/// How 65,536 words and instructions are spread: files, words of each, instructions of each.
const SPREADS: [(u32, u32, u32); 6] = [
    (64, 1_024, 0),
    (64, 0, 1_024),
    (64, 512, 512),
    (1, 65_536, 0),
    (1, 0, 65_536),
    (2, 32_767, 1),
];

pub fn check(rng: &mut Rng, tally: &mut Tally) -> Check {
    for spread in SPREADS {
        check_spread(rng, spread, tally)?;
    }
    check_longest()?;
    check_flags()
}

/// A memory in which a file stores on every other instruction for as long as it likes.
fn program(rng: &mut Rng) -> Program {
    let [r1, r4] = [Operand::Direct(1), Operand::After(4)];
    let mut memory = vec![
        compute(3, [true; 4], r1, r4),
        compute(0, [false; 4], Operand::After(0), Operand::Direct(0)),
        // The word taken steps r0 up too, to 0.
        u32::MAX,
        HALTING_BITS,
    ];
    memory.resize_with(LENGTH as usize, || rng.word());
    Program {
        memory,
        bottom: 0,
        waits: Vec::new(),
        position: 0,
        start: Machine {
            registers: [0, 7, 0, 0, STORES, 0, 0, 0],
            ..Machine::default()
        },
        count: 0,
    }
}

/// So much work; a file, a word and an instruction more; and with the last file undone.
fn check_spread(rng: &mut Rng, (files, words, count): (u32, u32, u32), tally: &mut Tally) -> Check {
    let mut spread = TraverseCase::of_none(&program(rng), 1);
    for _ in 0..files {
        let words: Vec<u32> = (0..words).map(|_| rng.word()).collect();
        spread.push(STORES, &words, STORE, count);
    }
    let with = |place, words: &[u32], count| {
        let mut more = spread.clone();
        more.push(place, words, STORE, count);
        more
    };
    let ending = |entry| {
        let mut undone = spread.clone();
        undone.files[files as usize - 1].entry = entry;
        undone
    };
    let cases = [
        spread.clone(),
        with(LENGTH, &[], 0),
        with(STORES, &[7], 0),
        with(STORES, &[], 1),
        ending(HALT),
        ending(LENGTH),
    ];
    for mut case in cases {
        check_with_journals(&mut case, tally)?;
    }
    Ok(())
}

/// A pair for each word and instruction; just as many as all files need, a place more, and
/// one fewer, so that the last pair is missing.
fn check_with_journals(case: &mut TraverseCase, tally: &mut Tally) -> Check {
    check_rules(case, tally)?;
    let enough = 2 * pairs_of_traverse(case);
    for places in [enough.saturating_sub(1), enough, enough + 1] {
        case.places = places;
        check_rules(case, tally)?;
    }
    Ok(())
}

/// Files at the very end of the longest memory, and one word past it; the middle one is
/// undone. Without printing the memory.
fn check_longest() -> Check {
    let mut memory = vec![0x0001_0129; MOST_WORDS]; // inc (r1),(r1)
    memory[1] = HALTING_BITS;
    let last = MOST_WORDS as u32 - 1;
    let start = Machine {
        registers: [0, last, 0, 0, 0, 0, 0, 0],
        ..Machine::default()
    };
    let mut case = TraverseCase {
        memory,
        bottom: last - 1,
        places: 0,
        words: Vec::new(),
        files: Vec::new(),
        start,
        version: 0,
    };
    case.push(last - 1, &[40, 41], 0, 1);
    case.push(last, &[50], 0, 2);
    case.push(MOST_WORDS as u32, &[], last - 1, 1);
    for (place, bottom) in [(last, last - 1), (last, last), (last + 1, 0), (u32::MAX, 0)] {
        case.files[1].place = place;
        case.bottom = bottom;
        check_longest_case(&mut case)?;
    }
    Ok(())
}

fn check_longest_case(case: &mut TraverseCase) -> Check {
    for rule in RULES {
        case.version = rule;
        if proved::traverse(case) != expected::traverse(case) {
            let TraverseCase { files, bottom, .. } = case;
            return Err(format!(
                "traverse differs on a memory of {MOST_WORDS} words, bottom {bottom}, rule {rule}: {files:?}\n"
            ));
        }
    }
    Ok(())
}

/// Words, files, version and places; the code that is due, and the flags.
type Flagged<'a> = (&'a [u32], &'a [u32], u32, usize, u32, u32);

/// Flags that are lent as 9 stay where a traverse is refused or taken back, also by a full
/// journal; else the machine is written, with 1 for each, also where every file was undone
/// or there is none. One word is laid, or none.
fn check_flags() -> Check {
    let (none, halt, laid) = ([0; 4], [0, 0, 0, 1], [0, 1, 0, 0]);
    let long = [0, 0, 0, 65_537];
    let cases: [Flagged; 13] = [
        (&[], &[], 1, 2, DONE, 1),
        (&[], &[], 2, 2, DONE, 1),
        (&[], &halt, 1, 2, DONE, 1),
        (&[], &halt, 2, 2, STOPPED, 9),
        (&[], &none, 1, 2, DONE, 1),
        (&[], &none, 2, 0, DONE, 1),
        (&[], &none, 3, 2, 11, 9),
        (&[], &laid, 1, 2, 18, 9),
        (&[], &long, 1, 2, DONE, 1),
        (&[], &long, 2, 0, STOPPED, 9),
        (&[0], &laid, 2, 2, DONE, 1),
        (&[0], &laid, 1, 1, DONE, 1),
        (&[0], &laid, 2, 1, JOURNAL_FULL, 9),
    ];
    for (words, files, version, places, due, flag) in cases {
        let mut machine = [0; MACHINE_SIZE];
        machine[8..].fill(9);
        let (memory, journal) = (&mut [HALTING_BITS], &mut vec![0; places]);
        let (lent, result) = (&mut machine, &mut [0; 3]);
        let code = library::traverse(memory, 0, journal, words, files, lent, version, result);
        if code != due || machine[8..] != [flag; 4] || machine[..8] != [0; 8] {
            return Err(format!(
                "flags of 9, files {files:?}, version {version}, {places} places: \
                 code {code}, machine {machine:?}\n"
            ));
        }
    }
    Ok(())
}
