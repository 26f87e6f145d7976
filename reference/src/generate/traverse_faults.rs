//! Traverses that are turned down (CR 1), for one reason or for several.

use super::bottom::refused_bottom;
use super::traverse::TraverseCase;
use crate::rng::Rng;
use crate::traverse::{File, MOST_FILES};

/// What can be wrong with a traverse besides a memory that is too long.
#[derive(Clone, Copy, Debug, PartialEq, Eq)]
pub enum Fault {
    NoWords,
    Bottom,
    Files,
    Place,
    Words,
    Version,
}

/// In the order in which they are looked at.
pub const FAULTS: [Fault; 6] = [
    Fault::NoWords,
    Fault::Bottom,
    Fault::Files,
    Fault::Place,
    Fault::Words,
    Fault::Version,
];

impl Fault {
    /// The reason to turn a traverse down that has this fault alone.
    pub fn number(self) -> u8 {
        match self {
            Fault::NoWords => 1,
            Fault::Bottom => 21,
            Fault::Files => 16,
            Fault::Place => 17,
            Fault::Words => 18,
            Fault::Version => 11,
        }
    }
}

/// One to three of them.
pub fn any_faults(rng: &mut Rng) -> Vec<Fault> {
    let number = rng.between(1, 3);
    (0..number).map(|_| rng.pick(&FAULTS)).collect()
}

/// Puts all of the faults into a good traverse.
pub fn spoil(rng: &mut Rng, case: &mut TraverseCase, faults: &[Fault]) {
    if case.files.is_empty() {
        case.push(0, &[], 0, 1);
    }
    // A fault must not mend one that is there: the memory's follow those that look at its
    // length.
    let order = [
        Fault::Files,
        Fault::Place,
        Fault::Words,
        Fault::Version,
        Fault::NoWords,
        Fault::Bottom,
    ];
    for fault in order.into_iter().filter(|fault| faults.contains(fault)) {
        put(rng, case, fault);
    }
}

fn put(rng: &mut Rng, case: &mut TraverseCase, fault: Fault) {
    match fault {
        Fault::NoWords => case.memory.clear(),
        Fault::Bottom => case.bottom = refused_bottom(rng, case.memory.len()),
        Fault::Files => {
            let files = MOST_FILES + rng.pick(&[1, 1, 2, 7]);
            case.files.resize(files, File::default());
        }
        Fault::Place => misplace(rng, case),
        Fault::Words => mismatch(rng, &mut case.words),
        Fault::Version => case.version = rng.pick(&[0, 3, 257, 258, 1 << 31 | 1, u32::MAX]),
    }
}

/// A file ends past the memory, by one word or far; or its words begin below the bottom.
fn misplace(rng: &mut Rng, case: &mut TraverseCase) {
    let (length, bottom) = (case.memory.len() as u32, case.bottom);
    let at = rng.below(case.files.len());
    let file = &mut case.files[at];
    let first = length - file.words + 1;
    file.place = match rng.below(4) {
        0 if bottom > 0 && file.words > 0 => rng.below(bottom as usize) as u32,
        1 => u32::MAX,
        2 => rng.between(first as usize, u32::MAX as usize) as u32,
        _ => first,
    };
}

/// One word more than the files have, one fewer, or none.
fn mismatch(rng: &mut Rng, words: &mut Vec<u32>) {
    match rng.below(3) {
        0 if !words.is_empty() => words.clear(),
        1 if !words.is_empty() => words.truncate(words.len() - 1),
        _ => words.push(rng.word()),
    }
}
