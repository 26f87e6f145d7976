//! What a call returned and left in everything it was lent.

use super::lent::guard;
use crate::codes::JOURNAL_FULL;
use crate::text::{hex_bytes, hex_words};
use fm8502::library::{DONE, HALTED, STOPPED};
use std::fmt;

#[derive(Clone, Debug, PartialEq, Eq)]
pub struct Outcome {
    pub code: u32,
    /// The machine's 12 words or the state's 21.
    pub words: Vec<u32>,
    pub result: Vec<u64>,
    pub memory: Vec<u32>,
    pub journal: Vec<u32>,
    /// The output of the image writer.
    pub output: Vec<u8>,
    /// Whether a place next to a lent slice was written, or one that is lent to be read.
    pub strayed: bool,
}

impl Outcome {
    /// A call that is to fill `places` of a result, before it is made.
    pub fn as_lent(memory: &[u32], words: &[u32], places: usize) -> Outcome {
        Outcome {
            code: DONE,
            words: words.to_vec(),
            result: vec![guard(); places],
            memory: memory.to_vec(),
            journal: Vec::new(),
            output: Vec::new(),
            strayed: false,
        }
    }

    pub fn carried_out(&self) -> bool {
        matches!(self.code, DONE | STOPPED | HALTED | JOURNAL_FULL)
    }
}

impl fmt::Display for Outcome {
    fn fmt(&self, f: &mut fmt::Formatter<'_>) -> fmt::Result {
        writeln!(f, "  code {} result {:?}", self.code, self.result)?;
        writeln!(f, "  machine or state{}", hex_words(&self.words))?;
        writeln!(f, "  memory{}", hex_words(&self.memory))?;
        if !self.journal.is_empty() {
            writeln!(f, "  journal{}", hex_words(&self.journal))?;
        }
        if !self.output.is_empty() {
            writeln!(f, "  output {}", hex_bytes(&self.output))?;
        }
        if self.strayed {
            writeln!(f, "  wrote next to what was lent, or to what is only read")?;
        }
        Ok(())
    }
}
