//! That the generated traverses reach what they are meant to reach.

use reference::generate::program::any_program;
use reference::generate::traverse::{looping_traverse_case, traverse_case, TraverseCase};
use reference::rng::Rng;
use reference::{is_instruction, step, traverse, File, Machine, TraverseAnswer};
use std::collections::{HashMap, HashSet};

/// How often each thing turned up.
#[derive(Default)]
struct Seen(HashMap<&'static str, usize>);

impl Seen {
    fn count(&mut self, things: &[(&'static str, bool)]) {
        for &(thing, seen) in things {
            *self.0.entry(thing).or_default() += usize::from(seen);
        }
    }

    fn assert_all_above(&self, least: usize) {
        assert!(self.0.values().all(|&times| times > least), "{:?}", self.0);
    }
}

/// Addresses of a file's words.
fn addresses(file: &File) -> std::ops::Range<u32> {
    file.place..file.place + file.words
}

/// The versions, numbers of files and bottoms.
fn record_sizes(seen: &mut Seen, case: &TraverseCase) {
    let (length, bottom) = (case.memory.len() as u32, case.bottom);
    seen.count(&[
        ("version 1", case.version == 1),
        ("version 2", case.version == 2),
        ("no files", case.files.is_empty()),
        ("one file", case.files.len() == 1),
        ("63 files", case.files.len() == 63),
        ("64 files", case.files.len() == 64),
        ("bottom 0", bottom == 0),
        ("some bottom", bottom > 0 && bottom < length),
        ("bottom of all", bottom == length),
    ]);
}

/// What the files have in them before anything runs.
fn record_files(seen: &mut Seen, case: &TraverseCase) {
    let (length, bottom) = (case.memory.len() as u32, case.bottom);
    let any = |is: &dyn Fn(&File) -> bool| case.files.iter().any(is);
    let no_words_at = |at| any(&|file| file.words == 0 && file.place == at);
    let words_from = |at| any(&|file| file.words > 0 && file.place == at);
    let words_to = |at| any(&|file| file.words > 0 && addresses(file).end == at);
    let overlap = case.files.windows(2).any(|two| {
        let [first, second] = [&two[0], &two[1]].map(addresses);
        first.start < second.end && second.start < first.end
    });
    seen.count(&[
        ("overlap", overlap),
        ("no words below", bottom > 0 && no_words_at(0)),
        ("no words at end", no_words_at(length)),
        ("words from bottom", words_from(bottom)),
        ("words to end", words_to(length)),
        ("no instructions", any(&|file| file.count == 0)),
        (
            "enters past",
            any(&|file| file.entry >= length && file.count > 0),
        ),
        (
            "enters laid",
            any(&|file| addresses(file).contains(&file.entry)),
        ),
    ]);
}

/// A traverse as version 1 has it, of which the words that run are looked at.
struct Walk {
    memory: Vec<u32>,
    machine: Machine,
    bottom: u32,
    /// Addresses that ran, and those of them over which words were laid afterwards.
    ran: HashSet<u32>,
    laid_over: HashSet<u32>,
    /// Whether a file ran words that it had laid, or an earlier one had over code that had
    /// run, and whether one met a word that halts at once.
    runs_laid: bool,
    runs_laid_over: bool,
    halts_at_once: bool,
}

impl Walk {
    fn file(&mut self, file: &File, words: &[u32]) {
        let before = (self.memory.clone(), self.machine);
        self.lay(file, words);
        self.machine.registers[0] = file.entry;
        let finished = (0..file.count).all(|number| self.step(file, number));
        if !finished {
            (self.memory, self.machine) = before;
        }
    }

    fn lay(&mut self, file: &File, words: &[u32]) {
        for (address, &word) in addresses(file).zip(words) {
            self.memory[address as usize] = word;
            self.laid_over.extend(self.ran.get(&address));
        }
    }

    /// Whether the instruction ran.
    fn step(&mut self, file: &File, number: u32) -> bool {
        let pc = self.machine.registers[0];
        let word = self.memory.get(pc as usize);
        let halts = word.is_some_and(|&word| !is_instruction(word));
        self.halts_at_once |= number == 0 && halts;
        if step(&mut self.memory, self.bottom, &mut self.machine).is_err() {
            return false;
        }
        self.ran.insert(pc);
        self.runs_laid |= addresses(file).contains(&pc);
        self.runs_laid_over |= self.laid_over.contains(&pc);
        true
    }
}

/// What is run.
fn record_runs(seen: &mut Seen, case: &TraverseCase) {
    let mut walk = Walk {
        memory: case.memory.clone(),
        machine: case.start,
        bottom: case.bottom,
        ran: HashSet::new(),
        laid_over: HashSet::new(),
        runs_laid: false,
        runs_laid_over: false,
        halts_at_once: false,
    };
    let mut rest = &case.words[..];
    for file in &case.files {
        let (words, after) = rest.split_at(file.words as usize);
        rest = after;
        walk.file(file, words);
    }
    seen.count(&[
        ("runs laid", walk.runs_laid),
        ("runs laid over run", walk.runs_laid_over),
        ("halts at once", walk.halts_at_once),
    ]);
}

/// Which files were undone.
fn record_undone(seen: &mut Seen, case: &TraverseCase) {
    let result = traverse(
        &mut case.memory.clone(),
        case.bottom,
        &mut vec![0; case.places],
        &case.words,
        &case.files,
        case.start,
        case.version,
    );
    let last = case.files.len().saturating_sub(1) as u32;
    match result.answer {
        TraverseAnswer::Marked(undone) => record_marked(seen, undone, last),
        TraverseAnswer::Finished => seen.count(&[("2: none", last > 0)]),
        TraverseAnswer::TakenBack(file) => seen.count(&[
            ("2: first", file == 0 && last > 0),
            ("2: between", file > 0 && file < last),
            ("2: last", file > 0 && file == last),
        ]),
        answer => panic!("{answer:?}: {case:X?}"),
    }
}

fn record_marked(seen: &mut Seen, undone: u64, last: u32) {
    let ends = 1 | 1 << last;
    seen.count(&[
        ("1: none", last > 0 && undone == 0),
        ("1: first alone", last > 0 && undone == 1),
        ("1: last alone", last > 0 && undone == 1 << last),
        ("1: between alone", undone > 0 && undone & ends == 0),
        ("1: all", last > 0 && undone.count_ones() == last + 1),
        ("1: bit 63", undone >> 63 == 1),
    ]);
}

#[test]
fn traverses_of_programs_are_of_every_kind() {
    let mut rng = Rng::new(114);
    let mut seen = Seen::default();
    for _ in 0..20_000 {
        let program = any_program(&mut rng);
        let case = traverse_case(&mut rng, &program);
        record_sizes(&mut seen, &case);
        record_files(&mut seen, &case);
        record_runs(&mut seen, &case);
        record_undone(&mut seen, &case);
    }
    seen.assert_all_above(100);
}

/// Their files finish for the most part, and run code that was laid over a loop.
#[test]
fn traverses_of_loops_lay_over_them() {
    let mut rng = Rng::new(115);
    let mut seen = Seen::default();
    for _ in 0..300 {
        let case = looping_traverse_case(&mut rng);
        record_runs(&mut seen, &case);
        record_undone(&mut seen, &case);
    }
    for thing in ["runs laid over run", "1: none", "2: none"] {
        assert!(seen.0[thing] > 30, "{:?}", seen.0);
    }
    for thing in ["1: between alone", "2: between"] {
        assert!(seen.0[thing] > 2, "{:?}", seen.0);
    }
}

#[test]
fn one_seed_gives_the_same_traverses_again() {
    let cases = |seed| {
        let mut rng = Rng::new(seed);
        let program = any_program(&mut rng);
        (0..50)
            .map(|_| traverse_case(&mut rng, &program))
            .collect::<Vec<_>>()
    };
    assert_eq!(cases(17), cases(17));
    assert_ne!(cases(17), cases(18));
}
