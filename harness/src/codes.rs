//! The reference emulator's answers as the library's codes.

use fm8502::library::{DONE, HALTED, STOPPED};
use reference::{Answer, FileAnswer, Refusal, Stop, TraverseAnswer};

/// Carried out, and undone as the journal is full (CR 11); of a file run, or of a traverse
/// under rule 2.
pub const JOURNAL_FULL: u32 = 102;

pub fn refused(refusal: Refusal) -> u32 {
    u32::from(refusal.number())
}

/// Of a call that is refused or carried out as a whole.
pub fn of_call(answer: Result<(), Refusal>) -> u32 {
    answer.map_or_else(refused, |()| DONE)
}

pub fn of_run(answer: Answer) -> u32 {
    match answer {
        Answer::Finished => DONE,
        Answer::Stopped(Stop::Outside) => STOPPED,
        Answer::Stopped(Stop::NoInstruction) => HALTED,
        Answer::Refused(refusal) => refused(refusal),
    }
}

pub fn of_file_run(answer: FileAnswer) -> u32 {
    match answer {
        FileAnswer::Finished => DONE,
        FileAnswer::Undone => STOPPED,
        FileAnswer::JournalFull => JOURNAL_FULL,
        FileAnswer::Refused(refusal) => refused(refusal),
    }
}

pub fn of_traverse(answer: TraverseAnswer) -> u32 {
    match answer {
        TraverseAnswer::Marked(_) | TraverseAnswer::Finished => DONE,
        TraverseAnswer::TakenBack(_) => STOPPED,
        TraverseAnswer::JournalFull(_) => JOURNAL_FULL,
        TraverseAnswer::Refused(refusal) => refused(refusal),
    }
}

/// The first result of a traverse: which files were undone, or which file was.
pub fn undone(answer: TraverseAnswer) -> u64 {
    match answer {
        TraverseAnswer::Marked(undone) => undone,
        TraverseAnswer::TakenBack(file) | TraverseAnswer::JournalFull(file) => u64::from(file),
        TraverseAnswer::Finished | TraverseAnswer::Refused(_) => 0,
    }
}
