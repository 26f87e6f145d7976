//! The traverse (CR 1): up to 64 files on one memory, one after the other.

use crate::file_run::{run_journaled, Ending};
use crate::journal::Journal;
use crate::machine::Machine;
use crate::refusal::{check_memory_and_bottom, check_version, Refusal};

/// The most files of a traverse.
pub const MOST_FILES: usize = 64;

/// A file of a traverse: its words are laid from the place on, r0 is set to the entry,
/// and it runs. The words of all files lie in one list, one file's after the other's.
#[derive(Clone, Copy, Debug, Default, PartialEq, Eq)]
pub struct File {
    pub place: u32,
    pub words: u32,
    pub entry: u32,
    pub count: u32,
}

/// How a traverse ended.
#[derive(Clone, Copy, Debug, PartialEq, Eq)]
pub enum TraverseAnswer {
    /// Version 1: bit i is set where file i was undone, also where its journal was full.
    Marked(u64),
    /// Version 2: no file was undone.
    Finished,
    /// Version 2: the file of this number was undone; memory and machine are as at the
    /// start, and no later file ran.
    TakenBack(u32),
    /// Version 2: a word or store of the file of this number needed one address more than
    /// there are pairs (CR 11); as after `TakenBack`.
    JournalFull(u32),
    Refused(Refusal),
}

#[derive(Clone, Copy, Debug, PartialEq, Eq)]
pub struct TraverseResult {
    pub answer: TraverseAnswer,
    pub machine: Machine,
    /// Instructions that ran in the last file run, also where it was undone; 0 with no
    /// files, and where its words did not all fit into the journal.
    pub ran: u32,
    /// Pairs of address and former word in the journal, also of an undone file: of the last
    /// file (version 1) or of all that ran (version 2).
    pub pairs: u32,
}

/// Lays and runs the files. The version says what an undone file takes back: itself (1)
/// or the traverse (2).
pub fn traverse(
    memory: &mut [u32],
    bottom: u32,
    journal: &mut [u32],
    words: &[u32],
    files: &[File],
    start: Machine,
    version: u32,
) -> TraverseResult {
    if let Err(refusal) = check(memory, bottom, words, files, version) {
        return TraverseResult {
            answer: TraverseAnswer::Refused(refusal),
            machine: start,
            ran: 0,
            pairs: 0,
        };
    }
    let mut traverse = Traverse {
        memory,
        bottom,
        journal: Journal::new(journal),
        words,
        machine: start,
        ran: 0,
    };
    let answer = match version {
        1 => traverse.each_alone(files),
        _ => traverse.all_or_none(files),
    };
    TraverseResult {
        answer,
        machine: traverse.machine,
        ran: traverse.ran,
        pairs: traverse.journal.pairs(),
    }
}

/// The first reason that applies. Sums are wide enough for any list that fits a computer.
fn check(
    memory: &[u32],
    bottom: u32,
    words: &[u32],
    files: &[File],
    version: u32,
) -> Result<(), Refusal> {
    check_memory_and_bottom(memory.len(), bottom)?;
    if files.len() > MOST_FILES {
        return Err(Refusal::TooManyFiles);
    }
    if files
        .iter()
        .any(|file| misplaced(file, memory.len(), bottom))
    {
        return Err(Refusal::FileMisplaced);
    }
    let laid: u128 = files.iter().map(|file| u128::from(file.words)).sum();
    if laid != words.len() as u128 {
        return Err(Refusal::WordsMismatched);
    }
    check_version(version)
}

/// Past the memory's end, also with no words; or with a word below the bottom (CR 6).
fn misplaced(file: &File, words: usize, bottom: u32) -> bool {
    let end = u64::from(file.place) + u64::from(file.words);
    end > words as u64 || file.words > 0 && file.place < bottom
}

/// A traverse under way.
struct Traverse<'a> {
    memory: &'a mut [u32],
    bottom: u32,
    journal: Journal<'a>,
    /// Those not laid yet.
    words: &'a [u32],
    machine: Machine,
    /// Instructions of the last file.
    ran: u32,
}

impl Traverse<'_> {
    /// An undone file goes back to before its words were laid, and the next follows. Each
    /// has the journal to itself.
    fn each_alone(&mut self, files: &[File]) -> TraverseAnswer {
        let mut undone = 0;
        for (number, file) in files.iter().enumerate() {
            let (memory, machine) = (self.memory.to_vec(), self.machine);
            self.journal.start_again();
            if self.lay_and_run(file) != Ending::Finished {
                self.go_back(&memory, machine);
                undone |= 1 << number;
            }
        }
        TraverseAnswer::Marked(undone)
    }

    /// The first undone file takes all of them back and is the last. They share the journal.
    fn all_or_none(&mut self, files: &[File]) -> TraverseAnswer {
        let (memory, machine) = (self.memory.to_vec(), self.machine);
        for (number, file) in (0..).zip(files) {
            let answer = match self.lay_and_run(file) {
                Ending::Finished => continue,
                Ending::Stopped => TraverseAnswer::TakenBack(number),
                Ending::Full => TraverseAnswer::JournalFull(number),
            };
            self.go_back(&memory, machine);
            return answer;
        }
        TraverseAnswer::Finished
    }

    /// From copies, and not by the journal, so that its pairs can be checked by this.
    fn go_back(&mut self, memory: &[u32], machine: Machine) {
        self.memory.copy_from_slice(memory);
        self.machine = machine;
    }

    /// A file whose words do not all fit into the journal is not run.
    fn lay_and_run(&mut self, file: &File) -> Ending {
        let (words, rest) = self.words.split_at(file.words as usize);
        self.words = rest;
        self.ran = 0;
        if !self.lay(file.place, words) {
            return Ending::Full;
        }
        self.machine.registers[0] = file.entry;
        let (ending, ran) = run_journaled(
            self.memory,
            self.bottom,
            &mut self.journal,
            &mut self.machine,
            file.count,
        );
        self.ran = ran;
        ending
    }

    /// Whether there was a pair for each word, which is journaled as a store is.
    fn lay(&mut self, place: u32, words: &[u32]) -> bool {
        (place..).zip(words).all(|(address, &word)| {
            let there = &mut self.memory[address as usize];
            let fits = self.journal.note(address, *there).is_ok();
            *there = word;
            fits
        })
    }
}
