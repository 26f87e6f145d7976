//! Traverses (CR 1): files on the memory of a program.

use super::halting::halting_bits;
use super::looping::{body, looping_program};
use super::program::{data_word, tame_word, Program};
use crate::instruction::is_instruction;
use crate::machine::Machine;
use crate::rng::Rng;
use crate::traverse::{File, MOST_FILES};

/// One file in so many enters past the memory.
const FILES_PER_ABSENT: usize = 20;

/// One call of a traverse.
#[derive(Clone, Debug, PartialEq, Eq)]
pub struct TraverseCase {
    pub memory: Vec<u32>,
    pub bottom: u32,
    /// Places of the journal.
    pub places: usize,
    pub words: Vec<u32>,
    pub files: Vec<File>,
    pub start: Machine,
    pub version: u32,
}

impl TraverseCase {
    /// A traverse of no files on the program's memory.
    pub fn of_none(program: &Program, version: u32) -> TraverseCase {
        TraverseCase {
            memory: program.memory.clone(),
            bottom: program.bottom,
            places: 0,
            words: Vec::new(),
            files: Vec::new(),
            start: program.start,
            version,
        }
    }

    /// The traverse that a file run is: one file with no words at place 0, entered at r0.
    pub fn of_program(program: &Program, places: usize, version: u32) -> TraverseCase {
        let file = File {
            entry: program.start.registers[0],
            count: program.count,
            ..File::default()
        };
        TraverseCase {
            places,
            files: vec![file],
            ..TraverseCase::of_none(program, version)
        }
    }

    /// Adds a file, with a pair in the journal for each of its words and instructions.
    pub fn push(&mut self, place: u32, words: &[u32], entry: u32, count: u32) {
        self.files.push(File {
            place,
            words: words.len() as u32,
            entry,
            count,
        });
        self.words.extend(words);
        self.places += 2 * (words.len() + count as usize);
    }

    /// The files that `is_kept` says of, by their numbers, with their words.
    pub fn only(&self, is_kept: impl Fn(usize) -> bool) -> TraverseCase {
        let mut kept = TraverseCase {
            places: 0,
            words: Vec::new(),
            files: Vec::new(),
            ..self.clone()
        };
        let mut rest = &self.words[..];
        for (number, file) in self.files.iter().enumerate() {
            let (words, after) = rest.split_at(file.words as usize);
            rest = after;
            if is_kept(number) {
                kept.push(file.place, words, file.entry, file.count);
            }
        }
        kept
    }
}

/// Files on the program's memory, with its bottom, that are not turned down; the journal
/// has a pair for each word and instruction, or more, so that it is never full.
pub fn traverse_case(rng: &mut Rng, program: &Program) -> TraverseCase {
    let mut case = TraverseCase::of_none(program, rng.between(1, 2) as u32);
    for _ in 0..number_of_files(rng) {
        let words = words(rng, program);
        let place = place(rng, &case, words.len());
        let entry = entry(rng, program, place, words.len());
        let count = count(rng, program.count);
        case.push(place, &words, entry, count);
    }
    case.places += rng.pick(&[0, 0, 1, 5]);
    case
}

/// None, one, some, or as many as there may be.
fn number_of_files(rng: &mut Rng) -> usize {
    match rng.below(16) {
        0 => 0,
        1..=3 => 1,
        4..=9 => rng.between(2, 4),
        10..=13 => rng.between(5, 12),
        14 => rng.between(13, MOST_FILES),
        _ => rng.pick(&[MOST_FILES - 1, MOST_FILES]),
    }
}

/// None, a few, or as many as fit above the bottom: a part of the program, instructions
/// that run on, or data; at times one is no instruction.
fn words(rng: &mut Rng, program: &Program) -> Vec<u32> {
    let length = program.memory.len();
    let room = length - program.bottom as usize;
    let number = match rng.below(16) {
        0..=3 => 0,
        4 => room,
        _ => rng.between(1, 6).min(room),
    };
    let kind = rng.below(4);
    let from = rng.below(length);
    let word = |rng: &mut Rng, i: usize| match kind {
        0 | 1 => program.memory[(from + i) % length],
        2 => tame_word(rng),
        _ => data_word(rng, length),
    };
    let mut words: Vec<u32> = (0..number).map(|i| word(rng, i)).collect();
    if number > 0 && rng.one_in(12) {
        let at = rng.below(number);
        words[at] = tame_word(rng) | halting_bits(rng);
    }
    words
}

/// Where so many words lie: at either end, over the file before, where that one runs, or
/// anywhere. With no words it may be below the bottom, and at the memory's length.
fn place(rng: &mut Rng, case: &TraverseCase, words: usize) -> u32 {
    let last = (case.memory.len() - words) as u32;
    let any = rng.below(last as usize + 1) as u32;
    if words == 0 {
        return rng.pick(&[0, case.bottom, last, any]);
    }
    let before = case.files.last().copied().unwrap_or_default();
    let near = rng.below(3) as u32;
    let place = match rng.below(6) {
        0 => case.bottom,
        1 => last,
        2 => before.place.saturating_add(near),
        3 => before.entry.saturating_add(near),
        _ => any,
    };
    place.clamp(case.bottom, last)
}

/// In the words just laid, where the program starts, or anywhere; at times past the memory
/// or at a word that halts.
fn entry(rng: &mut Rng, program: &Program, place: u32, words: usize) -> u32 {
    let length = program.memory.len();
    if rng.one_in(FILES_PER_ABSENT) {
        return rng.pick(&[length as u32, length as u32 + 1, u32::MAX]);
    }
    let halting = program
        .memory
        .iter()
        .position(|&word| !is_instruction(word));
    match (halting, rng.below(8)) {
        (Some(halting), 0) => halting as u32,
        (_, 1..=3) if words > 0 => place + rng.below(words) as u32,
        (_, 4) => rng.below(length) as u32,
        _ => program.start.registers[0],
    }
}

/// None, a few, or as many as the program has.
fn count(rng: &mut Rng, most: u32) -> u32 {
    match rng.below(8) {
        0 => 0,
        1 => rng.between(0, most as usize) as u32,
        _ => rng.between(1, 5) as u32,
    }
}

/// Files that enter a loop for some hundred instructions each, and lay instructions over
/// its body where the bottom lets them, or data above it.
pub fn looping_traverse_case(rng: &mut Rng) -> TraverseCase {
    let program = looping_program(rng);
    let mut case = TraverseCase::of_none(&program, rng.between(1, 2) as u32);
    let mut within = body(&program);
    if case.bottom > 0 {
        within = case.bottom as usize..case.memory.len();
    }
    for _ in 0..number_of_files(rng) {
        let words = rng.between(0, 4).min(within.len());
        let place = within.start + rng.below(within.len() - words + 1);
        let words: Vec<u32> = (0..words).map(|_| tame_word(rng)).collect();
        let entry = if rng.one_in(8) {
            rng.below(program.memory.len())
        } else {
            0
        };
        case.push(
            place as u32,
            &words,
            entry as u32,
            rng.between(0, 600) as u32,
        );
    }
    case
}
