//! That generated programs and traverses come to every border of the journal (CR 11).

use reference::generate::journal::{
    pairs_of_program, places, storing_program, storing_traverse_case, FEW_PLACES,
};
use reference::generate::program::Program;
use reference::generate::traverse::TraverseCase;
use reference::rng::Rng;
use reference::{is_instruction, step, traverse, Instruction, Machine, Stop};
use reference::{File, TraverseAnswer};
use std::collections::HashMap;

/// How often each thing turned up.
#[derive(Default)]
struct Seen(HashMap<&'static str, usize>);

impl Seen {
    fn count(&mut self, thing: &'static str, seen: bool) {
        *self.0.entry(thing).or_default() += usize::from(seen);
    }

    fn assert_all_above(&self, least: usize) {
        assert!(self.0.values().all(|&times| times > least), "{:?}", self.0);
    }
}

/// One of the files, or a file run.
struct Walk<'a> {
    memory: Vec<u32>,
    bottom: u32,
    machine: Machine,
    /// Addresses that have a pair, and how many may have one.
    noted: Vec<u32>,
    pairs: usize,
    seen: &'a mut Seen,
}

impl Walk<'_> {
    fn is_full(&self) -> bool {
        self.noted.len() == self.pairs
    }

    /// Whether the next word, an instruction or not, asks to store to memory at an address
    /// without a pair, missing or not; and whether its condition fails.
    fn wants_pair(&self) -> [bool; 2] {
        let Some(&word) = self.memory.get(self.machine.registers[0] as usize) else {
            return [false; 2];
        };
        let instruction = Instruction::decode(word);
        let mut registers = self.machine.registers;
        registers[0] = registers[0].wrapping_add(1);
        instruction.a.step_down(&mut registers);
        instruction.b.step_down(&mut registers);
        let address = registers[instruction.b.register()];
        let is_new =
            instruction.b.in_memory() && address >= self.bottom && !self.noted.contains(&address);
        let stores = instruction.stores(self.machine.flags);
        [is_new && stores, is_new && !stores]
    }

    /// Up to `count` instructions; whether all of them ran.
    fn run(&mut self, count: u32) -> bool {
        (0..count).all(|_| self.step())
    }

    fn step(&mut self) -> bool {
        let [wants, fails] = self.wants_pair();
        let is_full = self.is_full();
        let step = match step(&mut self.memory, self.bottom, &mut self.machine) {
            Ok(step) => step,
            Err(stop) => {
                let outside = wants && stop == Stop::Outside;
                let halts = wants && stop == Stop::NoInstruction;
                let seen = &mut self.seen;
                seen.count("store with a missing word, full", outside && is_full);
                seen.count("store with a missing word, not full", outside && !is_full);
                seen.count("store that halts, full", halts && is_full);
                return false;
            }
        };
        let is_equal = self.is_equal(step.stored);
        let is_last = self.noted.len() + 1 == self.pairs;
        let seen = &mut self.seen;
        seen.count("below the bottom, full", step.below_bottom && is_full);
        seen.count("failed condition, full", fails && is_full);
        let again = step.stored.is_some() && !wants;
        seen.count("store to a noted address, full", again && is_full);
        seen.count("store of an equal word", is_equal);
        seen.count("full at a store", wants && is_full);
        seen.count("takes the last pair", wants && is_last);
        if wants && !is_full {
            self.noted.extend(step.stored.map(|(address, _)| address));
        }
        !(wants && is_full)
    }

    fn is_equal(&self, stored: Option<(u32, u32)>) -> bool {
        stored.is_some_and(|(address, former)| self.memory[address as usize] == former)
    }
}

fn record_program(seen: &mut Seen, program: &Program, places: usize) {
    let wanted = pairs_of_program(program);
    seen.count("needs none", wanted == 0);
    seen.count("needs more than 12", wanted > 12);
    seen.count(
        "needs 1 to 4, runs more than 40",
        (1..=4).contains(&wanted) && program.count > 40,
    );
    seen.count("one pair short", wanted > 0 && places / 2 == wanted - 1);
    seen.count("just enough", wanted > 0 && places == 2 * wanted);
    seen.count("just enough and a place", places == 2 * wanted + 1);
    seen.count("one pair more", places / 2 == wanted + 1);
    let few = ["0 places", "1 place", "2 places", "3 places", "7 places"];
    for (name, few) in few.into_iter().zip(FEW_PLACES) {
        seen.count(name, places == few);
    }
    let mut walk = Walk {
        memory: program.memory.clone(),
        bottom: program.bottom,
        machine: program.start,
        noted: Vec::new(),
        pairs: places / 2,
        seen,
    };
    let finished = walk.run(program.count);
    let is_full = walk.is_full();
    seen.count(
        "finished with every pair used",
        finished && is_full && wanted > 0,
    );
    seen.count("finished with pairs left", finished && !is_full);
}

#[test]
fn programs_come_to_every_border() {
    let mut rng = Rng::new(221);
    let mut seen = Seen::default();
    for _ in 0..20_000 {
        let program = storing_program(&mut rng);
        let places = places(&mut rng, pairs_of_program(&program));
        record_program(&mut seen, &program, places);
    }
    for thing in ["full at a store", "takes the last pair"] {
        assert!(seen.0[thing] > 5_000, "{:?}", seen.0);
    }
    seen.assert_all_above(200);
}

/// Which of a file's words finds no pair.
fn record_laid(seen: &mut Seen, file: &File, short_at: Option<usize>) {
    let last = file.words as usize - 1;
    seen.count("full at the first word", short_at == Some(0));
    let between = short_at.is_some_and(|at| at > 0 && at < last);
    seen.count("full at a middle word", between);
    seen.count("full at the last word", last > 0 && short_at == Some(last));
    seen.count("every word fits", short_at.is_none());
}

/// A file on the walk's memory; whether it finished.
fn record_file(walk: &mut Walk, file: &File, words: &[u32]) -> bool {
    let mut short_at = None;
    for (i, (address, &word)) in (file.place..).zip(words).enumerate() {
        let is_noted = walk.noted.contains(&address);
        walk.seen.count("word at a noted address", is_noted);
        let there = &mut walk.memory[address as usize];
        walk.seen.count("equal word laid", *there == word);
        *there = word;
        if !is_noted && walk.noted.len() == walk.pairs {
            short_at = Some(i);
            break;
        }
        if !is_noted {
            walk.noted.push(address);
        }
    }
    if !words.is_empty() {
        record_laid(walk.seen, file, short_at);
    }
    walk.machine.registers[0] = file.entry;
    short_at.is_none() && walk.run(file.count)
}

/// The files as the version has them.
fn record_files(seen: &mut Seen, case: &TraverseCase) {
    let mut walk = Walk {
        memory: case.memory.clone(),
        bottom: case.bottom,
        machine: case.start,
        noted: Vec::new(),
        pairs: case.places / 2,
        seen,
    };
    let mut rest = &case.words[..];
    for file in &case.files {
        let before = (walk.memory.clone(), walk.machine);
        if case.version == 1 {
            walk.noted.clear();
        }
        let (words, after) = rest.split_at(file.words as usize);
        rest = after;
        if record_file(&mut walk, file, words) {
            continue;
        }
        (walk.memory, walk.machine) = before;
        if case.version == 2 {
            break;
        }
    }
}

fn record_answer(seen: &mut Seen, case: &TraverseCase) {
    let result = traverse(
        &mut case.memory.clone(),
        case.bottom,
        &mut vec![0; case.places],
        &case.words,
        &case.files,
        case.start,
        case.version,
    );
    let last = case.files.len().saturating_sub(1) as u32;
    match result.answer {
        TraverseAnswer::Marked(undone) => seen.count(
            "1: some but not all",
            undone > 0 && undone.count_ones() <= last,
        ),
        TraverseAnswer::Finished => seen.count(
            "2: finished, every pair used",
            result.pairs > 0 && result.pairs as usize == case.places / 2,
        ),
        TraverseAnswer::TakenBack(_) => seen.count("2: undone", true),
        TraverseAnswer::JournalFull(file) => {
            seen.count("2: full in the first of several", file == 0 && last > 0);
            seen.count("2: full between", file > 0 && file < last);
            seen.count("2: full in the last", file > 0 && file == last);
        }
        TraverseAnswer::Refused(refusal) => panic!("refused with {refusal}: {case:X?}"),
    }
}

#[test]
fn traverses_come_to_every_border() {
    let mut rng = Rng::new(222);
    for version in [1, 2] {
        let mut seen = Seen::default();
        for _ in 0..10_000 {
            let mut case = storing_traverse_case(&mut rng);
            case.version = version;
            record_files(&mut seen, &case);
            record_answer(&mut seen, &case);
        }
        if version == 1 {
            // A file's words come first, when its journal has no pair.
            assert_eq!(seen.0.remove("word at a noted address"), Some(0));
        }
        seen.assert_all_above(50);
    }
}

/// The halting words of the programs are no instructions.
#[test]
fn programs_hold_words_that_halt() {
    let mut rng = Rng::new(223);
    let halting = (0..1_000).filter(|_| {
        let program = storing_program(&mut rng);
        !program.memory[..2].iter().all(|&word| is_instruction(word))
    });
    assert!(halting.count() > 20);
}
