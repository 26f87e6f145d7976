//! Directed traverses (CR 1): at every border of places, words, files, sums and masks, and
//! every set of reasons to refuse but a memory that is too long.

use super::images::NO_VERSIONS;
use super::traverses::{check_case, check_rules, Tally};
use super::Check;
use crate::words::compute;
use reference::generate::program::{any_program, Program};
use reference::generate::traverse::{traverse_case, TraverseCase};
use reference::generate::traverse_faults::{spoil, Fault, FAULTS};
use reference::rng::Rng;
use reference::{File, Machine, Operand, HALTING_BITS};

/// Words of memory, and where the code and its data are.
const LENGTH: u32 = 12;
const DATA: u32 = 8;

/// Where the code halts.
const HALTING: u32 = 3;

/// Adds 1 to r1.
const INCREMENT: u32 = 0x0001_0021;

/// Rounds of all sets of reasons.
const ROUNDS: usize = 16;

pub fn check(rng: &mut Rng, tally: &mut Tally) -> Check {
    check_places(tally)?;
    check_numbers_of_files(tally)?;
    check_masks(tally)?;
    check_kinds_of_files(tally)?;
    check_sums(tally)?;
    check_lists(tally)?;
    check_versions(tally)?;
    check_faults(rng, tally)
}

/// Adds r1 to the word at r2, with all flags; adds 1 to r1; the same with r2 stepping up;
/// a word that halts.
fn program() -> Program {
    let [r1, at_r2] = [Operand::Direct(1), Operand::Indirect(2)];
    let mut memory = vec![
        compute(3, [true; 4], r1, at_r2),
        compute(1, [false; 4], r1, r1),
        compute(3, [true; 4], r1, Operand::After(2)),
        HALTING_BITS,
    ];
    memory.resize(LENGTH as usize, 0x77);
    Program {
        memory,
        bottom: 0,
        waits: Vec::new(),
        position: 0,
        start: Machine {
            registers: [99, u32::MAX, DATA, 3, 4, 5, 6, 7],
            ..Machine::default()
        },
        count: 0,
    }
}

fn empty() -> TraverseCase {
    TraverseCase::of_none(&program(), 1)
}

/// A file alone, and as the last of three, of which the others have no words.
fn check_file(case: &TraverseCase, place: u32, words: u32, tally: &mut Tally) -> Check {
    let words = vec![INCREMENT; words as usize];
    let mut alone = case.clone();
    alone.push(place, &words, 0, 2);
    check_rules(&mut alone, tally)?;
    let mut last = case.clone();
    last.push(0, &[], 1, 1);
    last.push(LENGTH, &[], HALTING, 1);
    last.push(place, &words, place, 1);
    check_rules(&mut last, tally)
}

/// Each place and number of words around the memory's end and each bottom.
fn check_places(tally: &mut Tally) -> Check {
    let far = [1 << 24, 1 << 31, u32::MAX - 1, u32::MAX];
    let places: Vec<u32> = (0..=LENGTH + 2).chain(far).collect();
    let all = |bottom: u32| places.iter().map(move |&place| (bottom, place));
    for (bottom, place) in (0..=LENGTH).flat_map(all) {
        let case = TraverseCase { bottom, ..empty() };
        for words in [0, 1, 2, 3, 4, LENGTH - 1, LENGTH, LENGTH + 1] {
            check_file(&case, place, words, tally)?;
        }
    }
    Ok(())
}

/// None, one, as many as there may be, and more.
fn check_numbers_of_files(tally: &mut Tally) -> Check {
    for number in [0, 1, 2, 63, 64, 65, 66, 128, 1_000] {
        let mut case = empty();
        for i in 0..number {
            case.push(DATA + i % 4, &[i], i % 3, i % 4);
        }
        check_rules(&mut case, tally)?;
    }
    Ok(())
}

/// Of 64 files each one undone, each one alone not undone, all, none and some.
fn check_masks(tally: &mut Tally) -> Check {
    let one = (0..64).map(|bit| 1_u64 << bit);
    let others = [0, u64::MAX, 1 << 63 | 1, 0xAAAA_AAAA_AAAA_AAAA];
    for mask in one.clone().map(|mask| !mask).chain(one).chain(others) {
        check_rules(&mut of_mask(mask), tally)?;
    }
    Ok(())
}

/// The files of the mask are undone, at once or after stores; each lays a word over data
/// or over code.
fn of_mask(mask: u64) -> TraverseCase {
    let mut case = empty();
    for number in 0..64 {
        let [entry, count] = match (mask >> number & 1, number % 3) {
            (0, _) => [0, 2],
            (_, 0) => [HALTING, 1],
            (_, 1) => [LENGTH, 1],
            _ => [0, 4],
        };
        // Over the code, with other flags permitted.
        let code = case.memory[1] ^ ((number % 16) << 10);
        let (place, word) = [(DATA, number), (1, code)][number as usize % 2];
        case.push(place, &[word], entry, count);
    }
    case
}

/// Files: words over code that runs next, over the words of the file before and over data;
/// finishing, halting, leaving the memory, entered past it, and of no instructions.
const KINDS: [(u32, &[u32], u32, u32); 10] = [
    (0, &[], 0, 3),
    (0, &[INCREMENT, INCREMENT, INCREMENT], 0, 3),
    (1, &[INCREMENT], 0, 3),
    (2, &[INCREMENT, INCREMENT], 0, 4),
    (HALTING, &[INCREMENT], 0, 5),
    (1, &[HALTING_BITS], 0, 3),
    (DATA - 1, &[5, 6, 7], 0, 4),
    (LENGTH - 1, &[INCREMENT], LENGTH - 1, 2),
    (DATA, &[9], LENGTH, 1),
    (DATA, &[u32::MAX], u32::MAX, 0),
];

/// Three files, each of each kind.
fn check_kinds_of_files(tally: &mut Tally) -> Check {
    for number in 0..KINDS.len().pow(3) {
        let mut case = empty();
        let kinds = [number % 10, number / 10 % 10, number / 100];
        for (place, words, entry, count) in kinds.map(|kind| KINDS[kind]) {
            case.push(place, words, entry, count);
        }
        check_bottoms(&mut case, tally)?;
    }
    Ok(())
}

/// None, the first word of the code, and all below the second of the data; with a pair for
/// each word and instruction, and with fewer.
fn check_bottoms(case: &mut TraverseCase, tally: &mut Tally) -> Check {
    let enough = case.places;
    for bottom in [0, 1, DATA + 1] {
        case.bottom = bottom;
        check_journals(case, &[0, 1, 2, 3, 4, 5, 6, 7, 8, 10, 12, enough], tally)?;
    }
    Ok(())
}

/// Sums that 32 bits would make small again, with journals of no place and of many. The
/// files' instructions are any number (CR 11), as the program halts.
fn check_sums(tally: &mut Tally) -> Check {
    const TOP: u32 = u32::MAX;
    const HALF: u32 = 1 << 31;
    // Words and counts, file by file.
    let lists: [&[(u32, u32)]; 12] = [
        &[(TOP, 1)],
        &[(1, TOP)],
        &[(0, TOP), (0, 1)],
        &[(TOP, 0), (1, 0)],
        &[(HALF, HALF)],
        &[(HALF, 0), (HALF, 2)],
        &[(TOP, TOP)],
        &[(TOP, TOP), (1, 1)],
        &[(TOP, TOP), (TOP, TOP)],
        &[(TOP, TOP), (TOP, TOP), (2, 2)],
        &[(0, 1 << 26); 64],
        &[(TOP, TOP); 65],
    ];
    for list in lists {
        let file = |&(words, count): &(u32, u32)| File {
            words,
            count,
            ..File::default()
        };
        let files = list.iter().map(file).collect();
        let mut case = TraverseCase { files, ..empty() };
        check_journals(&mut case, &[0, 8, 131_072], tally)?;
    }
    Ok(())
}

/// With journals of so many places.
fn check_journals(case: &mut TraverseCase, places: &[usize], tally: &mut Tally) -> Check {
    for &places in places {
        case.places = places;
        check_rules(case, tally)?;
    }
    Ok(())
}

/// A list of words that is shorter and longer than the files' words, and journals of every
/// length up to what they need.
fn check_lists(tally: &mut Tally) -> Check {
    let mut good = empty();
    good.push(DATA, &[1, 2], 0, 3);
    good.push(DATA + 1, &[], 0, 1);
    good.push(DATA + 1, &[3, 4, 5], 0, 2);
    let places: Vec<usize> = (0..=good.places + 1).collect();
    for words in 0..=8 {
        let mut case = good.clone();
        case.words.resize(words, 9);
        check_journals(&mut case, &places, tally)?;
    }
    let mut none = empty();
    none.words.push(9);
    check_rules(&mut none, tally)
}

/// Numbers that are no version, with and without files, and after every other reason.
fn check_versions(tally: &mut Tally) -> Check {
    for version in NO_VERSIONS {
        let mut case = TraverseCase { version, ..empty() };
        check_case(&case, tally)?;
        case.push(DATA, &[1], 0, 2);
        check_case(&case, tally)?;
        case.words.push(9);
        check_case(&case, tally)?;
    }
    Ok(())
}

/// Every set of reasons, in traverses on generated programs.
fn check_faults(rng: &mut Rng, tally: &mut Tally) -> Check {
    for set in 0..ROUNDS << FAULTS.len() {
        let program = any_program(rng);
        let mut case = traverse_case(rng, &program);
        let faults: Vec<Fault> = (0..FAULTS.len())
            .filter(|i| set >> i & 1 == 1)
            .map(|i| FAULTS[i])
            .collect();
        spoil(rng, &mut case, &faults);
        check_case(&case, tally)?;
    }
    Ok(())
}
