//! The file run: an interpreter run that is undone as a whole where it stops early, or
//! where its journal is full (CR 11).

use crate::interpreter::step;
use crate::journal::Journal;
use crate::machine::Machine;
use crate::refusal::{check_memory_and_bottom, Refusal};

/// How a file run ended.
#[derive(Clone, Copy, Debug, PartialEq, Eq)]
pub enum FileAnswer {
    Finished,
    /// The interpreter would have stopped; memory and machine are as at the start.
    Undone,
    /// A store needed one address more than there are pairs; as after `Undone`.
    JournalFull,
    Refused(Refusal),
}

#[derive(Clone, Copy, Debug, PartialEq, Eq)]
pub struct FileResult {
    pub answer: FileAnswer,
    pub machine: Machine,
    /// Instructions that ran, also where they were undone.
    pub ran: u32,
    /// Pairs of address and former word put into the journal.
    pub pairs: u32,
}

/// Runs `count` instructions and journals the addresses at or above `bottom` (CR 6) to
/// which they store.
pub fn file_run(
    memory: &mut [u32],
    bottom: u32,
    journal: &mut [u32],
    start: Machine,
    count: u32,
) -> FileResult {
    let mut result = FileResult {
        answer: FileAnswer::Finished,
        machine: start,
        ran: 0,
        pairs: 0,
    };
    if let Err(refusal) = check_memory_and_bottom(memory.len(), bottom) {
        result.answer = FileAnswer::Refused(refusal);
        return result;
    }
    // What is undone comes from here, and not from the journal, so that the pairs can be
    // checked by it.
    let lent = memory.to_vec();
    let mut journal = Journal::new(journal);
    let (ending, ran) = run_journaled(memory, bottom, &mut journal, &mut result.machine, count);
    result.ran = ran;
    result.pairs = journal.pairs();
    result.answer = match ending {
        Ending::Finished => return result,
        Ending::Stopped => FileAnswer::Undone,
        Ending::Full => FileAnswer::JournalFull,
    };
    memory.copy_from_slice(&lent);
    result.machine = start;
    result
}

/// How the instructions of a file ended.
#[derive(Clone, Copy, Debug, PartialEq, Eq)]
pub(crate) enum Ending {
    Finished,
    Stopped,
    Full,
}

/// Up to `count` instructions; returns how they ended and how many ran. Where they did not
/// finish, memory and machine are to be put back by the caller: an instruction for which
/// the journal is full has changed them by then. Its words were all there, as a missing
/// one comes first.
pub(crate) fn run_journaled(
    memory: &mut [u32],
    bottom: u32,
    journal: &mut Journal,
    machine: &mut Machine,
    count: u32,
) -> (Ending, u32) {
    for ran in 0..count {
        let Ok(step) = step(memory, bottom, machine) else {
            return (Ending::Stopped, ran);
        };
        if let Some((address, former)) = step.stored {
            if journal.note(address, former).is_err() {
                return (Ending::Full, ran);
            }
        }
    }
    (Ending::Finished, count)
}
