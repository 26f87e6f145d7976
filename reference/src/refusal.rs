//! Why a call is turned down, and the limits the runs share.

use std::fmt;

/// The most words of memory that may be lent.
pub const MOST_WORDS: usize = 16_777_216;
/// The most entries of a wait list.
pub const MOST_WAITS: usize = 65_536;

/// The reasons of documents 01 and 02; each has its number there as its discriminant. 5 and
/// 6 are given no longer (CR 11).
#[derive(Clone, Copy, Debug, PartialEq, Eq)]
#[repr(u8)]
pub enum Refusal {
    NoWords = 1,
    TooManyWords = 2,
    LongWaitList = 3,
    /// Also of a run's list position (CR 7).
    BadGateState = 4,
    ShortOutput = 7,
    CutImage = 8,
    WrongTag = 9,
    WrongLength = 10,
    /// Neither 1 nor 2: of an image, and of a caller's number (CR 1).
    WrongVersion = 11,
    BadFlag = 12,
    BadWordCount = 13,
    ShortMemory = 14,
    TrailingBytes = 15,
    TooManyFiles = 16,
    /// A file's place plus words exceeds the memory (CR 1), or one of its words would lie
    /// below the bottom (CR 6).
    FileMisplaced = 17,
    /// The files' words do not add up to the one list they lie in (CR 1).
    WordsMismatched = 18,
    /// The bottom exceeds the memory's length (CR 6).
    BottomTooHigh = 21,
    /// The reset list does not rise strictly (CR 7).
    ResetsNotRising = 22,
}

impl Refusal {
    pub fn number(self) -> u8 {
        self as u8
    }
}

impl fmt::Display for Refusal {
    fn fmt(&self, f: &mut fmt::Formatter<'_>) -> fmt::Result {
        write!(f, "{}", self.number())
    }
}

/// Reasons 1 and 2, which the image writer has too.
pub(crate) fn check_memory(words: usize) -> Result<(), Refusal> {
    match words {
        0 => Err(Refusal::NoWords),
        1..=MOST_WORDS => Ok(()),
        _ => Err(Refusal::TooManyWords),
    }
}

/// Reasons 1, 2 and then 21, which every run checks first (CR 6).
pub(crate) fn check_memory_and_bottom(words: usize, bottom: u32) -> Result<(), Refusal> {
    check_memory(words)?;
    if bottom as usize > words {
        return Err(Refusal::BottomTooHigh);
    }
    Ok(())
}

/// Reason 11 as of a caller's number (CR 1).
pub(crate) fn check_version(version: u32) -> Result<(), Refusal> {
    match version {
        1 | 2 => Ok(()),
        _ => Err(Refusal::WrongVersion),
    }
}

/// Reason 3, checked after the memory and its bottom.
pub(crate) fn check_waits(entries: usize) -> Result<(), Refusal> {
    if entries > MOST_WAITS {
        return Err(Refusal::LongWaitList);
    }
    Ok(())
}

/// Reason 22, of a gate run after the wait list: of the whole list, so of numbers that
/// have no effect too (CR 7).
pub(crate) fn check_resets(resets: &[u64]) -> Result<(), Refusal> {
    if resets.windows(2).any(|pair| pair[0] >= pair[1]) {
        return Err(Refusal::ResetsNotRising);
    }
    Ok(())
}

/// The part of reason 4 that the interpreter has too (CR 7): the list position is below
/// the list's length, or 0 for an empty list (CR 3).
pub(crate) fn check_position(entries: usize, position: u32) -> Result<(), Refusal> {
    if position as usize >= entries.max(1) {
        return Err(Refusal::BadGateState);
    }
    Ok(())
}
