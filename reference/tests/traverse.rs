//! The traverse against plain runs of its files, and what it takes back (CR 1).

mod common;

use common::machine;
use reference::generate::program::{any_program, Program};
use reference::generate::traverse::{looping_traverse_case, traverse_case, TraverseCase};
use reference::rng::Rng;
use reference::{file_run, run, traverse};
use reference::{Answer, File, FileAnswer, Machine, TraverseAnswer, TraverseResult};

const SENTINEL: u32 = 0x5A5A_5A5A;

/// Adds 1 to r1; adds r1 to the word at r2; adds r1 to the word at r2, and r2 steps up;
/// no instruction.
const INCREMENT: u32 = 0x0001_0021;
const ADD_TO: u32 = 0x0003_0141;
const ADD_AFTER: u32 = 0x0003_0341;
const HALT: u32 = 1 << 14;

/// What a traverse returned and left.
#[derive(Clone, Debug, PartialEq, Eq)]
struct Left {
    result: TraverseResult,
    memory: Vec<u32>,
    journal: Vec<u32>,
}

impl Left {
    fn pairs(&self) -> &[u32] {
        &self.journal[..2 * self.result.pairs as usize]
    }

    fn undone(&self) -> u64 {
        match self.result.answer {
            TraverseAnswer::Marked(undone) => undone,
            answer => panic!("{answer:?}"),
        }
    }
}

fn go(case: &TraverseCase) -> Left {
    let (mut memory, mut journal) = (case.memory.clone(), vec![SENTINEL; case.places]);
    let result = traverse(
        &mut memory,
        case.bottom,
        &mut journal,
        &case.words,
        &case.files,
        case.start,
        case.version,
    );
    let left = Left {
        result,
        memory,
        journal,
    };
    // Under version 1 an earlier file may have filled places past the last one's (CR 11).
    let unused = &left.journal[2 * result.pairs as usize..];
    assert!(case.version == 1 || unused.iter().all(|&word| word == SENTINEL));
    left
}

/// A memory of these words, the rest 0.
fn memory(words: &[u32], length: usize) -> Vec<u32> {
    let mut memory = words.to_vec();
    memory.resize(length, 0);
    memory
}

/// A traverse of no files yet, from r1 = 1 and r2 = 8.
fn empty(version: u32) -> TraverseCase {
    let program = Program {
        memory: memory(&[ADD_TO, INCREMENT, HALT], 12),
        bottom: 0,
        waits: vec![],
        position: 0,
        start: machine(&[(0, 77), (1, 1), (2, 8)], "1010"),
        count: 0,
    };
    TraverseCase::of_none(&program, version)
}

/// Puts the former words back, last pair first.
fn taken_back(mut memory: Vec<u32>, pairs: &[u32]) -> Vec<u32> {
    for pair in pairs.chunks_exact(2).rev() {
        memory[pair[0] as usize] = pair[1];
    }
    memory
}

#[test]
fn no_files() {
    for version in [1, 2] {
        let case = empty(version);
        let left = go(&case);
        assert_eq!((left.result.ran, left.result.pairs), (0, 0));
        assert_eq!(
            (left.result.machine, left.memory),
            (case.start, case.memory)
        );
        let due = [TraverseAnswer::Marked(0), TraverseAnswer::Finished];
        assert_eq!(left.result.answer, due[version as usize - 1]);
    }
}

/// Words and stores share the journal, of each file or of all; registers and flags go on;
/// r0 is set each time.
#[test]
fn files_follow_on() {
    for version in [1, 2] {
        let mut case = empty(version);
        case.push(8, &[40], 0, 2);
        case.push(9, &[50, 60], 1, 1);
        case.push(11, &[], 0, 1);
        let left = go(&case);
        let due = [TraverseAnswer::Marked(0), TraverseAnswer::Finished];
        assert_eq!(left.result.answer, due[version as usize - 1]);
        // r1 is 1, then 2 and 3; the last file adds it to word 8.
        let registers = [(0, 1), (1, 3), (2, 8)];
        assert_eq!(left.result.machine, machine(&registers, "1010"));
        assert_eq!(left.result.ran, 1);
        assert_eq!(left.memory[8..], [44, 50, 60, 0]);
        let due: [&[u32]; 2] = [&[8, 41], &[8, 0, 9, 0, 10, 0]];
        assert_eq!(left.pairs(), due[version as usize - 1]);
    }
}

/// The middle file's word at 1 halts it after its store.
fn middle_undone(version: u32) -> TraverseCase {
    let mut case = empty(version);
    case.push(8, &[40], 0, 2);
    case.push(1, &[HALT], 0, 2);
    case.push(9, &[50], 0, 2);
    case
}

#[test]
fn an_undone_file_alone_goes_back_under_version_1() {
    let left = go(&middle_undone(1));
    assert_eq!(left.undone(), 0b010);
    assert_eq!(
        left.memory,
        memory(&[ADD_TO, INCREMENT, HALT, 0, 0, 0, 0, 0, 43, 50], 12)
    );
    let registers = [(0, 2), (1, 3), (2, 8)];
    assert_eq!(left.result.machine, machine(&registers, "1010"));
    // The pairs are the last file's (CR 11).
    assert_eq!((left.result.ran, left.result.pairs), (2, 2));
    assert_eq!(left.pairs(), [9, 0, 8, 41]);
}

#[test]
fn an_undone_file_takes_all_back_under_version_2() {
    let case = middle_undone(2);
    let left = go(&case);
    assert_eq!(left.result.answer, TraverseAnswer::TakenBack(1));
    assert_eq!(
        (left.result.machine, &left.memory),
        (case.start, &case.memory)
    );
    assert_eq!((left.result.ran, left.result.pairs), (1, 2));
    assert_eq!(left.pairs(), [8, 0, 1, INCREMENT]);
}

/// Flags and all registers that an undone file changed go back, r0 to what the file
/// before left and not to the entry.
#[test]
fn registers_and_flags_go_back() {
    // Adds with all flags permitted, steps r2, then needs the word at 12.
    let words = [0x0003_3F41, 0x0003_3F41, HALT];
    for (place, entry, count) in [(4, 4, 3), (4, 12, 1), (4, u32::MAX, 1), (4, 6, 1)] {
        let mut case = empty(1);
        case.push(8, &[u32::MAX], 1, 1);
        case.push(place, &words, entry, count);
        let left = go(&case);
        assert_eq!(left.undone(), 0b10);
        let registers = [(0, 2), (1, 2), (2, 8)];
        assert_eq!(left.result.machine, machine(&registers, "1010"));
        assert_eq!(left.memory[4..9], [0, 0, 0, 0, u32::MAX]);
        case.version = 2;
        let left = go(&case);
        assert_eq!(left.result.answer, TraverseAnswer::TakenBack(1));
        assert_eq!(
            (left.result.machine, left.memory),
            (case.start, case.memory)
        );
    }
}

/// The count is the last run file's, undone or not, and not a sum.
#[test]
fn the_count_is_of_the_last_file_run() {
    for (counts, due) in [([2, 1, 0], 0), ([0, 2, 1], 1), ([1, 1, 9], 2)] {
        let mut case = empty(1);
        for count in counts {
            case.push(0, &[], 0, count);
        }
        let left = go(&case);
        assert_eq!(left.result.ran, due);
        assert_eq!(left.undone(), u64::from(counts[2] == 9) << 2);
    }
    let mut case = empty(2);
    for count in [1, 3, 2] {
        case.push(0, &[], 0, count);
    }
    let left = go(&case);
    assert_eq!(left.result.answer, TraverseAnswer::TakenBack(1));
    assert_eq!(left.result.ran, 2);
}

/// 64 files: those of the mask enter at a word that halts, the others add.
fn of_mask(mask: u64) -> TraverseCase {
    let mut case = empty(1);
    for number in 0..64 {
        let entry = if mask >> number & 1 == 1 { 2 } else { 0 };
        case.push(9, &[number], entry, 1);
    }
    case
}

fn check_mask(mask: u64) {
    let mut case = of_mask(mask);
    let left = go(&case);
    assert_eq!(left.undone(), mask);
    let finished = mask.count_zeros();
    assert_eq!(left.memory[8], finished);
    let last = 63 - (!mask).leading_zeros().min(63);
    assert_eq!(left.memory[9], if mask == u64::MAX { 0 } else { last });
    // Of the last file: its word, and its store if it was not undone at once.
    assert_eq!(left.result.pairs, if mask >> 63 == 1 { 1 } else { 2 });
    case.version = 2;
    let due = match mask.trailing_zeros() {
        64 => TraverseAnswer::Finished,
        first => TraverseAnswer::TakenBack(first),
    };
    assert_eq!(go(&case).result.answer, due);
}

/// Each file alone undone, each alone finished, none, all, and some.
#[test]
fn every_bit_of_the_mask() {
    (0..64).map(|bit| 1 << bit).for_each(check_mask);
    (0..64).map(|bit| !(1 << bit)).for_each(check_mask);
    [0, u64::MAX, 1 << 63 | 1, 0x5555_5555_5555_5555]
        .into_iter()
        .for_each(check_mask);
}

/// Laid over each other, and over the code that runs next.
#[test]
fn words_are_laid_over_code_and_words() {
    for version in [1, 2] {
        let mut case = empty(version);
        case.push(0, &[INCREMENT, INCREMENT, INCREMENT], 0, 3);
        case.push(1, &[ADD_AFTER, ADD_AFTER], 0, 3);
        case.push(2, &[INCREMENT], 0, 3);
        let left = go(&case);
        // r1: 4, 5 (stored twice), 6 (stored once) and 7.
        let registers = [(0, 3), (1, 7), (2, 11)];
        assert_eq!(left.result.machine, machine(&registers, "1010"));
        assert_eq!(left.memory[..4], [INCREMENT, ADD_AFTER, INCREMENT, 0]);
        assert_eq!(left.memory[8..], [5, 5, 6, 0]);
        let back = taken_back(left.memory.clone(), left.pairs());
        let due = [
            memory(&[INCREMENT, ADD_AFTER, ADD_AFTER, 0, 0, 0, 0, 0, 5, 5], 12),
            case.memory,
        ];
        assert_eq!(back, due[version as usize - 1]);
    }
}

/// An equal word is journaled too; a file of no instructions is finished wherever it
/// enters, with r0 there.
#[test]
fn words_alone() {
    let mut case = empty(2);
    case.push(0, &[ADD_TO], 500, 0);
    let left = go(&case);
    assert_eq!(left.result.answer, TraverseAnswer::Finished);
    assert_eq!(
        (left.pairs(), &left.memory),
        (&[0, ADD_TO][..], &case.memory)
    );
    let registers = [(0, 500), (1, 1), (2, 8)];
    assert_eq!(left.result.machine, machine(&registers, "1010"));
}

/// A store below the bottom alters nothing and takes no pair (CR 6).
#[test]
fn stores_below_the_bottom() {
    for version in [1, 2] {
        let mut case = empty(version);
        case.bottom = 9;
        case.push(9, &[7, 8], 0, 2);
        case.push(3, &[], 0, 1);
        let left = go(&case);
        assert_eq!(
            left.memory,
            memory(&[ADD_TO, INCREMENT, HALT, 0, 0, 0, 0, 0, 0, 7, 8], 12)
        );
        let due: [&[u32]; 2] = [&[], &[9, 0, 10, 0]];
        assert_eq!(left.pairs(), due[version as usize - 1]);
    }
}

/// The traverse file by file with plain runs: memory, machine, which were undone, and how
/// many ran in each.
fn file_by_file(case: &TraverseCase) -> (Vec<u32>, Machine, u64, u32) {
    let (mut memory, mut machine) = (case.memory.clone(), case.start);
    let (mut undone, mut ran, mut at) = (0, 0, 0);
    for (number, file) in case.files.iter().enumerate() {
        let File {
            place,
            words,
            entry,
            count,
        } = *file;
        let (mut next, mut start) = (memory.clone(), machine);
        let words = &case.words[at..at + words as usize];
        next[place as usize..place as usize + words.len()].copy_from_slice(words);
        at += words.len();
        start.registers[0] = entry;
        let result = run(&mut next, case.bottom, &[], 0, start, count);
        ran = result.ran;
        match result.answer {
            Answer::Finished => (memory, machine) = (next, result.machine),
            _ => undone |= 1 << number,
        }
        if undone > 0 && case.version == 2 {
            break;
        }
    }
    (memory, machine, undone, ran)
}

/// Returns how many files were run and how many of them undone.
fn check(case: &TraverseCase) -> [usize; 2] {
    let left = go(case);
    let (memory, machine, undone, ran) = file_by_file(case);
    assert_eq!(left.result.ran, ran, "{case:X?}");
    if case.version == 2 {
        assert_eq!(taken_back(left.memory.clone(), left.pairs()), case.memory);
    }
    if case.version == 2 && undone > 0 {
        let first = undone.trailing_zeros();
        assert_eq!(left.result.answer, TraverseAnswer::TakenBack(first));
        assert_eq!(
            (left.memory, left.result.machine),
            (case.memory.clone(), case.start)
        );
        return [first as usize + 1, 1];
    }
    let due = [TraverseAnswer::Marked(undone), TraverseAnswer::Finished];
    assert_eq!(
        left.result.answer,
        due[case.version as usize - 1],
        "{case:X?}"
    );
    assert_eq!(
        (&left.memory, left.result.machine),
        (&memory, machine),
        "{case:X?}"
    );
    // The finishing files alone leave the same under both rules.
    for version in [1, 2] {
        let mut alone = case.only(|number| undone >> number & 1 == 0);
        alone.version = version;
        let alone = go(&alone);
        assert_eq!((&alone.memory, alone.result.machine), (&memory, machine));
    }
    [case.files.len(), undone.count_ones() as usize]
}

#[test]
fn does_what_its_files_do_one_by_one() {
    let mut rng = Rng::new(111);
    let mut total = [0; 2];
    for number in 0..20_300 {
        let case = if number < 20_000 {
            let program = any_program(&mut rng);
            traverse_case(&mut rng, &program)
        } else {
            looping_traverse_case(&mut rng)
        };
        let counts = check(&case);
        total = [total[0] + counts[0], total[1] + counts[1]];
    }
    let [files, undone] = total;
    assert!(files > 80_000, "{files}");
    assert!(
        (files / 6..files / 2).contains(&undone),
        "{undone} of {files}"
    );
}

/// A file run and the traverse of one file with no words at place 0, entered at r0, with
/// a journal of so many places.
fn check_file_run(program: &Program, places: usize) {
    let (mut memory, mut journal) = (program.memory.clone(), vec![SENTINEL; places]);
    let Program {
        bottom,
        start,
        count,
        ..
    } = *program;
    let due = file_run(&mut memory, bottom, &mut journal, start, count);
    for version in [1, 2] {
        let left = go(&TraverseCase::of_program(program, places, version));
        let answer = match (due.answer, version) {
            (FileAnswer::Finished, 1) => TraverseAnswer::Marked(0),
            (FileAnswer::Finished, _) => TraverseAnswer::Finished,
            (FileAnswer::Undone, 1) => TraverseAnswer::Marked(1),
            (FileAnswer::Undone, _) => TraverseAnswer::TakenBack(0),
            (FileAnswer::JournalFull, 1) => TraverseAnswer::Marked(1),
            (FileAnswer::JournalFull, _) => TraverseAnswer::JournalFull(0),
            (FileAnswer::Refused(refusal), _) => TraverseAnswer::Refused(refusal),
        };
        let result = TraverseResult {
            answer,
            machine: due.machine,
            ran: due.ran,
            pairs: due.pairs,
        };
        assert_eq!(left.result, result, "{program:X?}");
        assert_eq!((&left.memory, &left.journal), (&memory, &journal));
    }
}

#[test]
fn a_file_run_is_the_traverse_of_one() {
    let mut rng = Rng::new(112);
    for _ in 0..20_000 {
        let mut program = any_program(&mut rng);
        let enough = 2 * program.count as usize;
        check_file_run(&program, enough + rng.below(3));
        check_file_run(&program, rng.below(enough.max(1)));
        if rng.one_in(100) {
            program.bottom = program.memory.len() as u32 + 1;
            check_file_run(&program, rng.below(enough + 1));
            program.bottom = 0;
            program.count = rng.pick(&[65_536, 65_537, 140_000]);
            check_file_run(&program, rng.pick(&[0, 3, 8, 200]));
            program.memory.clear();
            check_file_run(&program, 0);
        }
    }
}
