//! Traverses of the stacking loop under version 1: nothing undone, every file undone, and
//! words alone.

use super::measure::{best, time, Task};
use super::table::Table;
use super::workload::stacking_loop;
use super::Sizes;
use crate::baseline::{Contender, CONTENDERS};
use crate::words::{file_words, machine_words};
use fm8502::library::MACHINE_SIZE;
use reference::generate::traverse::TraverseCase;
use reference::rng::Rng;
use std::cell::RefCell;

const FILES: u32 = 64;

/// Of each file that runs.
const WORDS: u32 = 512;
const INSTRUCTIONS: u32 = 500;

/// Of each file that does not.
const WORDS_ALONE: u32 = 1_024;

/// Where the words are laid: the first samples. The memory has so many words.
const PLACE: u32 = 1_024;
const LENGTH: u32 = 16_384;

/// What a traverse is lent.
pub struct Traverse {
    pub name: String,
    pub machine: [u32; MACHINE_SIZE],
    pub memory: Vec<u32>,
    pub bottom: u32,
    pub words: Vec<u32>,
    pub files: Vec<u32>,
    /// Of the journal.
    pub places: usize,
}

impl Traverse {
    pub fn generated(name: &str, case: &TraverseCase) -> Traverse {
        Traverse {
            name: name.into(),
            machine: machine_words(&case.start),
            memory: case.memory.clone(),
            bottom: case.bottom,
            words: case.words.clone(),
            files: file_words(&case.files),
            places: case.places,
        }
    }

    /// Files of so many words and instructions on the stacking loop.
    fn stacking(name: &str, words: u32, instructions: u32) -> Traverse {
        let workload = stacking_loop();
        let mut rng = Rng::new(78);
        Traverse {
            name: name.into(),
            machine: workload.machine,
            memory: workload.memory,
            bottom: workload.bottom,
            words: (0..FILES * words).map(|_| rng.word() >> 8).collect(),
            files: [PLACE, words, 0, instructions].repeat(FILES as usize),
            places: 2 * (FILES * (words + instructions)) as usize,
        }
    }
}

/// The traverses of the table, each with the mask of the files that are undone.
pub fn measured() -> [(Traverse, u64); 3] {
    let mut undone = Traverse::stacking("every file undone", WORDS, INSTRUCTIONS);
    // A file reads the memory's last 166 samples and is undone at the next: after 498
    // instructions, three for each sample.
    undone.machine[1] = LENGTH - 166;
    [
        (Traverse::stacking("none undone", WORDS, INSTRUCTIONS), 0),
        (undone, u64::MAX),
        (Traverse::stacking("words alone", WORDS_ALONE, 0), 0),
    ]
}

pub fn traverses(sizes: Sizes) -> Table {
    let row = |(traverse, undone)| {
        let times = times(sizes, &traverse, undone);
        (traverse.name, times)
    };
    Table {
        title: format!("Traverse of {FILES} files"),
        unit: "word or instruction",
        rows: measured().map(row).into(),
    }
}

fn times(sizes: Sizes, traverse: &Traverse, undone: u64) -> Vec<f64> {
    let journal = RefCell::new(vec![1; traverse.places]);
    let mut tasks = CONTENDERS.each_ref().map(|contender| -> Task {
        Box::new(|| measure(contender, traverse, undone, &mut journal.borrow_mut()))
    });
    best(sizes.rounds, &mut tasks)
}

/// All files run as many instructions as the last.
fn measure(contender: &Contender, traverse: &Traverse, undone: u64, journal: &mut [u32]) -> f64 {
    let (mut memory, mut machine) = (traverse.memory.clone(), traverse.machine);
    let mut result = [0; 3];
    let all = time(1, || {
        (contender.traverse)(
            &mut memory,
            traverse.bottom,
            journal,
            &traverse.words,
            &traverse.files,
            &mut machine,
            1,
            &mut result,
        )
    });
    assert_eq!(result[0], undone, "{}", traverse.name);
    let work = traverse.words.len() as u64 + u64::from(FILES) * result[1];
    all / work as f64
}
