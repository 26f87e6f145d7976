//! A call that was turned down.

use std::fmt;

/// Why a call was turned down: the papers' number.
#[derive(Clone, Copy, Debug, PartialEq, Eq)]
pub struct Refused(pub u32);

/// The papers' reasons, each with its number.
#[rustfmt::skip] // tests/bindings.sh reads a reason a line
const REASONS: [(u32, &str); 18] = [
    (1, "the memory has no words"),
    (2, "the memory has more than 16,777,216 words"),
    (3, "the wait list has more than 65,536 entries"),
    (4, "the row, the list position or the access is bad"),
    (7, "the output is shorter than the image"),
    (8, "the image ends inside a field or before its end field"),
    (9, "a tag is not the one due"),
    (10, "a length is not the one due"),
    (11, "the version is neither 1 nor 2"),
    (12, "a flag byte exceeds 1"),
    (13, "the word count is 0 or above 16,777,216"),
    (14, "the memory is shorter than the word count"),
    (15, "bytes follow the end field"),
    (16, "the traverse has more than 64 files"),
    (17, "a file's place plus words exceeds the memory, or a word of it lies below the bottom"),
    (18, "the files' words do not add up to the list of words"),
    (21, "the bottom exceeds the memory's length"),
    (22, "the reset list does not rise strictly"),
];

impl fmt::Display for Refused {
    fn fmt(&self, f: &mut fmt::Formatter<'_>) -> fmt::Result {
        let Refused(number) = *self;
        write!(f, "refused {number}")?;
        // The number is open to the caller, and can be one that no call returns.
        match REASONS.iter().find(|(known, _)| *known == number) {
            Some((_, reason)) => write!(f, ": {reason}"),
            None => Ok(()),
        }
    }
}

impl std::error::Error for Refused {}
