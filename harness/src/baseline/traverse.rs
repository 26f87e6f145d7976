//! The traverse in Rust, written for speed: what is taken back goes back by the journal.

use super::interpreter::{registers_of, undone_code, Engine};
use super::journal::{with_bits, Journal};
use crate::codes::JOURNAL_FULL;
use fm8502::library::{DONE, FILE_SIZE};

/// Without waits, with a journal.
type Files<'a> = Engine<'a, false, true>;

#[inline(never)]
#[allow(clippy::too_many_arguments)] // As many as the library has.
pub fn traverse(
    memory: &mut [u32],
    bottom: u32,
    journal: &mut [u32],
    words: &[u32],
    files: &[u32],
    machine: &mut [u32],
    version: u32,
    result: &mut [u64],
) -> u32 {
    with_bits(|bits| {
        let registers = registers_of(machine);
        let journal = Journal::new(journal, bits);
        let mut traverse = Traverse {
            engine: Files::new(machine, memory, bottom, &[], journal),
            registers,
            words,
            ran: 0,
        };
        let (first, code) = match version {
            1 => (traverse.each_alone(files), DONE),
            _ => traverse.all_or_none(files),
        };
        if code == DONE {
            traverse.engine.give(&traverse.registers, machine);
        }
        let pairs = traverse.engine.journal.pairs();
        result.copy_from_slice(&[first, traverse.ran, pairs]);
        traverse.engine.journal.start_again();
        code
    })
}

struct Traverse<'a> {
    engine: Files<'a>,
    registers: [u32; 8],
    /// Those not laid yet.
    words: &'a [u32],
    /// Instructions of the last file.
    ran: u64,
}

impl Traverse<'_> {
    /// Returns the mask of the files that are undone. Each has the journal to itself.
    #[inline(always)]
    fn each_alone(&mut self, files: &[u32]) -> u64 {
        let mut undone = 0;
        for (number, file) in files.chunks_exact(FILE_SIZE).enumerate() {
            let before = (self.registers, self.engine.flags());
            self.engine.journal.start_again();
            if self.file(file) != DONE {
                self.engine.take_back();
                self.registers = before.0;
                self.engine.set_flags(before.1);
                undone |= 1 << number;
            }
        }
        undone
    }

    /// Returns the file that was undone, and the code.
    #[inline(always)]
    fn all_or_none(&mut self, files: &[u32]) -> (u64, u32) {
        for (number, file) in files.chunks_exact(FILE_SIZE).enumerate() {
            let code = self.file(file);
            if code != DONE {
                self.engine.take_back();
                return (number as u64, undone_code(code));
            }
        }
        (0, DONE)
    }

    /// Lays and runs it; returns its code.
    #[inline(always)]
    fn file(&mut self, file: &[u32]) -> u32 {
        let (laid, rest) = self.words.split_at(file[1] as usize);
        self.words = rest;
        self.ran = 0;
        if !self.engine.lay(file[0] as usize, laid) {
            return JOURNAL_FULL;
        }
        self.registers[0] = file[2];
        let ran = self.engine.run(&mut self.registers, file[3]);
        self.ran = u64::from(ran.count);
        ran.code
    }
}
