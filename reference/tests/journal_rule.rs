//! The journal of distinct addresses against the one before CR 11, which had a pair for
//! every store, on generated file runs and traverses.

use reference::generate::journal::{
    pairs_of_program, places, storing_program, storing_traverse_case, traverse_places,
};
use reference::generate::looping::looping_program;
use reference::generate::program::{any_program, Program};
use reference::generate::traverse::{looping_traverse_case, traverse_case, TraverseCase};
use reference::rng::Rng;
use reference::{file_run, step, traverse, Machine, TraverseAnswer};
use reference::{FileAnswer, TraverseResult};

const SENTINEL: u32 = 0x5A5A_5A5A;

/// A word laid or stored as the old journal had it, and how many instructions of its file
/// had run before it.
#[derive(Clone, Copy, Debug)]
struct Entry {
    address: u32,
    former: u32,
    ran: u32,
}

/// A file as it was before CR 11, on a journal that never ends.
struct OldFile {
    entries: Vec<Entry>,
    finished: bool,
    ran: u32,
    memory: Vec<u32>,
    machine: Machine,
}

/// Lays the words; returns an entry for each.
fn lay(memory: &mut [u32], place: u32, words: &[u32]) -> Vec<Entry> {
    let mut entry = |(address, &word)| Entry {
        address,
        former: std::mem::replace(&mut memory[address as usize], word),
        ran: 0,
    };
    (place..).zip(words).map(&mut entry).collect()
}

/// Lays the words and runs; memory and machine are put back where it did not finish.
fn old_file(
    lent: &[u32],
    bottom: u32,
    (place, words): (u32, &[u32]),
    start: Machine,
    entry: u32,
    count: u32,
) -> OldFile {
    let (mut memory, mut machine) = (lent.to_vec(), start);
    let mut entries = lay(&mut memory, place, words);
    machine.registers[0] = entry;
    let mut ran = 0;
    while ran < count {
        let Ok(step) = step(&mut memory, bottom, &mut machine) else {
            (memory, machine) = (lent.to_vec(), start);
            break;
        };
        if let Some((address, former)) = step.stored {
            entries.push(Entry {
                address,
                former,
                ran,
            });
        }
        ran += 1;
    }
    OldFile {
        entries,
        finished: ran == count,
        ran,
        memory,
        machine,
    }
}

/// The first entries of each address; `noted` are addresses that have a pair already.
fn firsts(entries: &[Entry], noted: &[u32]) -> Vec<Entry> {
    let is_first = |&(i, entry): &(usize, &Entry)| {
        let mut before = entries[..i].iter().map(|entry| entry.address);
        !noted.contains(&entry.address) && before.all(|address| address != entry.address)
    };
    let numbered = entries.iter().enumerate().filter(is_first);
    numbered.map(|(_, entry)| *entry).collect()
}

/// What the new journal makes of it.
struct Due {
    result: TraverseResult,
    memory: Vec<u32>,
    journal: Vec<u32>,
}

/// A traverse that goes by what the old journal would have had, file by file.
struct Walk<'a> {
    case: &'a TraverseCase,
    memory: Vec<u32>,
    machine: Machine,
    journal: Vec<u32>,
    noted: Vec<u32>,
    ran: u32,
}

/// How a file comes out.
#[derive(PartialEq)]
enum Out {
    Finished,
    Undone,
    Full,
}

impl Walk<'_> {
    fn file(&mut self, number: usize) -> Out {
        let case = self.case;
        let file = case.files[number];
        let at: usize = case.files[..number].iter().map(|f| f.words as usize).sum();
        let words = &case.words[at..at + file.words as usize];
        let laid = (file.place, words);
        let old = old_file(
            &self.memory,
            case.bottom,
            laid,
            self.machine,
            file.entry,
            file.count,
        );
        let firsts = firsts(&old.entries, &self.noted);
        let left = case.places / 2 - self.noted.len();
        for entry in firsts.iter().take(left) {
            let place = 2 * self.noted.len();
            self.journal[place] = entry.address;
            self.journal[place + 1] = entry.former;
            self.noted.push(entry.address);
        }
        if let Some(full) = firsts.get(left) {
            self.ran = full.ran;
            return Out::Full;
        }
        self.ran = old.ran;
        (self.memory, self.machine) = (old.memory, old.machine);
        if old.finished {
            Out::Finished
        } else {
            Out::Undone
        }
    }

    fn files(&mut self) -> TraverseAnswer {
        let mut undone = 0;
        for number in 0..self.case.files.len() {
            if self.case.version == 1 {
                self.noted.clear();
            }
            let out = self.file(number);
            if self.case.version == 1 {
                undone |= u64::from(out != Out::Finished) << number;
                continue;
            }
            let answer = match out {
                Out::Finished => continue,
                Out::Undone => TraverseAnswer::TakenBack(number as u32),
                Out::Full => TraverseAnswer::JournalFull(number as u32),
            };
            (self.memory, self.machine) = (self.case.memory.clone(), self.case.start);
            return answer;
        }
        match self.case.version {
            1 => TraverseAnswer::Marked(undone),
            _ => TraverseAnswer::Finished,
        }
    }
}

fn due(case: &TraverseCase) -> Due {
    let mut walk = Walk {
        case,
        memory: case.memory.clone(),
        machine: case.start,
        journal: vec![SENTINEL; case.places],
        noted: Vec::new(),
        ran: 0,
    };
    let answer = walk.files();
    Due {
        result: TraverseResult {
            answer,
            machine: walk.machine,
            ran: walk.ran,
            pairs: walk.noted.len() as u32,
        },
        memory: walk.memory,
        journal: walk.journal,
    }
}

fn check_traverse(case: &TraverseCase) {
    let (mut memory, mut journal) = (case.memory.clone(), vec![SENTINEL; case.places]);
    let TraverseCase {
        bottom,
        words,
        files,
        start,
        version,
        ..
    } = case;
    let result = traverse(
        &mut memory,
        *bottom,
        &mut journal,
        words,
        files,
        *start,
        *version,
    );
    let due = due(case);
    assert_eq!(result, due.result, "{case:X?}");
    assert_eq!((memory, journal), (due.memory, due.journal), "{case:X?}");
}

/// Returns how it ended.
fn check_file_run(program: &Program, places: usize) -> FileAnswer {
    let case = TraverseCase::of_program(program, places, 2);
    let due = due(&case);
    let (mut memory, mut journal) = (program.memory.clone(), vec![SENTINEL; places]);
    let Program {
        bottom,
        start,
        count,
        ..
    } = *program;
    let result = file_run(&mut memory, bottom, &mut journal, start, count);
    let answer = match due.result.answer {
        TraverseAnswer::TakenBack(0) => FileAnswer::Undone,
        TraverseAnswer::JournalFull(0) => FileAnswer::JournalFull,
        _ => FileAnswer::Finished,
    };
    assert_eq!(result.answer, answer, "{places} places: {program:X?}");
    let [got, want] = [
        (result.machine, result.ran, result.pairs),
        (due.result.machine, due.result.ran, due.result.pairs),
    ];
    assert_eq!(got, want, "{places} places: {program:X?}");
    assert_eq!((memory, journal), (due.memory, due.journal), "{program:X?}");
    answer
}

/// A program of any of the three generators.
fn program_of(rng: &mut Rng, number: usize) -> Program {
    match number % 50 {
        0 => looping_program(rng),
        1..=9 => any_program(rng),
        _ => storing_program(rng),
    }
}

#[test]
fn file_runs() {
    let mut rng = Rng::new(211);
    let mut full = 0;
    for number in 0..20_000 {
        let program = program_of(&mut rng, number);
        let places = places(&mut rng, pairs_of_program(&program));
        let answer = check_file_run(&program, places);
        full += usize::from(answer == FileAnswer::JournalFull);
    }
    assert!((4_000..16_000).contains(&full), "{full}");
}

#[test]
fn traverses() {
    let mut rng = Rng::new(212);
    for number in 0..10_000 {
        let mut case = match number % 50 {
            0 => looping_traverse_case(&mut rng),
            1..=9 => {
                let program = any_program(&mut rng);
                traverse_case(&mut rng, &program)
            }
            _ => storing_traverse_case(&mut rng),
        };
        case.places = traverse_places(&mut rng, &case);
        for version in [1, 2] {
            case.version = version;
            check_traverse(&case);
        }
    }
}

/// Where the old journal did not refuse there is a place for every word and instruction,
/// so that nothing is full; memory, machine, answer and counts are the old ones.
#[test]
fn where_the_old_journal_did_not_refuse() {
    let mut rng = Rng::new(213);
    for number in 0..20_000 {
        let program = program_of(&mut rng, number);
        let places = 2 * program.count as usize + rng.below(3);
        let answer = check_file_run(&program, places);
        assert_ne!(answer, FileAnswer::JournalFull, "{program:X?}");
    }
    for _ in 0..5_000 {
        let program = storing_program(&mut rng);
        // A journal of just enough places for the old rule, or some more.
        let mut case = traverse_case(&mut rng, &program);
        for version in [1, 2] {
            case.version = version;
            let due = due(&case);
            let full = matches!(due.result.answer, TraverseAnswer::JournalFull(_));
            assert!(!full, "{case:X?}");
            check_traverse(&case);
        }
    }
}
