//! The interpreter in Rust, written for speed: a run without waits or journal has
//! no code for them. The registers stand apart from the rest of the machine, as
//! they are indexed and would keep all of it from the processor's registers.

use super::journal::{with_bits, Journal};
use super::operand::{Operand, DIRECT};
use super::word_unit::word_unit;
use super::HALTING_BITS;
use crate::codes::JOURNAL_FULL;
use fm8502::library::{DONE, HALTED, STOPPED};

pub(super) struct Engine<'a, const WAITS: bool, const JOURNAL: bool> {
    carry: bool,
    overflow: bool,
    negative: bool,
    zero: bool,
    memory: &'a mut [u32],
    /// No store alters a word below it.
    bottom: usize,
    waits: &'a [u16],
    position: usize,
    pub(super) journal: Journal<'a>,
}

/// Instructions that ran, their clocks, and the run's code.
pub(super) struct Ran {
    pub count: u32,
    clocks: u64,
    pub code: u32,
}

pub fn run(
    memory: &mut [u32],
    bottom: u32,
    waits: &[u16],
    position: u32,
    machine: &mut [u32],
    count: u32,
    result: &mut [u64],
) -> u32 {
    if waits.is_empty() {
        plain_run::<false>(memory, bottom, waits, position, machine, count, result)
    } else {
        plain_run::<true>(memory, bottom, waits, position, machine, count, result)
    }
}

#[inline(never)]
fn plain_run<const WAITS: bool>(
    memory: &mut [u32],
    bottom: u32,
    waits: &[u16],
    position: u32,
    machine: &mut [u32],
    count: u32,
    result: &mut [u64],
) -> u32 {
    let mut registers = registers_of(machine);
    let none = Journal::none();
    let mut engine = Engine::<WAITS, false>::new(machine, memory, bottom, waits, none);
    engine.position = position as usize;
    let ran = engine.run(&mut registers, count);
    engine.give(&registers, machine);
    let position = engine.position as u64;
    result.copy_from_slice(&[u64::from(ran.count), ran.clocks, position]);
    ran.code
}

#[inline(never)]
pub fn file_run(
    memory: &mut [u32],
    bottom: u32,
    journal: &mut [u32],
    machine: &mut [u32],
    count: u32,
    result: &mut [u64],
) -> u32 {
    with_bits(|bits| {
        let mut registers = registers_of(machine);
        let journal = Journal::new(journal, bits);
        let mut engine = Engine::<false, true>::new(machine, memory, bottom, &[], journal);
        let ran = engine.run(&mut registers, count);
        result.copy_from_slice(&[u64::from(ran.count), engine.journal.pairs()]);
        if ran.code == DONE {
            engine.give(&registers, machine);
        } else {
            engine.take_back();
        }
        engine.journal.start_again();
        undone_code(ran.code)
    })
}

/// A file run does not say whether it was undone at a missing word or at one that halts.
#[inline(always)]
pub(super) fn undone_code(code: u32) -> u32 {
    if code == HALTED {
        STOPPED
    } else {
        code
    }
}

pub(super) fn registers_of(machine: &[u32]) -> [u32; 8] {
    let mut registers = [0; 8];
    registers.copy_from_slice(&machine[..8]);
    registers
}

impl<'a, const WAITS: bool, const JOURNAL: bool> Engine<'a, WAITS, JOURNAL> {
    #[inline(always)]
    pub(super) fn new(
        machine: &[u32],
        memory: &'a mut [u32],
        bottom: u32,
        waits: &'a [u16],
        journal: Journal<'a>,
    ) -> Self {
        Engine {
            carry: machine[8] != 0,
            overflow: machine[9] != 0,
            negative: machine[10] != 0,
            zero: machine[11] != 0,
            memory,
            bottom: bottom as usize,
            waits,
            position: 0,
            journal,
        }
    }

    #[inline(always)]
    pub(super) fn give(&self, registers: &[u32; 8], machine: &mut [u32]) {
        machine[..8].copy_from_slice(registers);
        machine[8..].copy_from_slice(&self.flags().map(u32::from));
    }

    #[inline(always)]
    pub(super) fn flags(&self) -> [bool; 4] {
        [self.carry, self.overflow, self.negative, self.zero]
    }

    #[inline(always)]
    pub(super) fn set_flags(&mut self, flags: [bool; 4]) {
        [self.carry, self.overflow, self.negative, self.zero] = flags;
    }

    /// Puts the journaled words back.
    #[inline(always)]
    pub(super) fn take_back(&mut self) {
        self.journal.take_back(self.memory);
    }

    /// Lays words from the address `place` on; each is journaled as a store is. Whether all
    /// of them found a pair.
    #[inline(always)]
    pub(super) fn lay(&mut self, place: usize, words: &[u32]) -> bool {
        let cells = &mut self.memory[place..place + words.len()];
        for (i, (cell, &word)) in cells.iter_mut().zip(words).enumerate() {
            if !self.journal.note(place + i, *cell) {
                return false;
            }
            *cell = word;
        }
        true
    }

    #[inline(always)]
    pub(super) fn run(&mut self, registers: &mut [u32; 8], count: u32) -> Ran {
        let mut ran = Ran {
            count: 0,
            clocks: 0,
            code: DONE,
        };
        while ran.count < count {
            let position = self.position;
            match self.step(registers) {
                Ok(clocks) => ran.clocks += clocks,
                Err(code) => {
                    // An instruction that does not run may have taken entries.
                    self.position = position;
                    ran.code = code;
                    break;
                }
            }
            ran.count += 1;
        }
        ran
    }

    /// One instruction; returns its clocks, or the code of a run that stops before it. Where
    /// the journal is full, registers and flags are for the caller to put back.
    #[inline(always)]
    fn step(&mut self, registers: &mut [u32; 8]) -> Result<u64, u32> {
        let pc = registers[0];
        let Some(&word) = self.memory.get(pc as usize) else {
            return Err(STOPPED);
        };
        if word & HALTING_BITS != 0 {
            return Err(HALTED);
        }
        let operand_a = Operand::of(word);
        let operand_b = Operand::of(word >> 5);
        registers[0] = pc.wrapping_add(1);
        let mut clocks = 8 + self.wait();
        let mut address = 0;
        let Some(a) = self.take(operand_a, registers, &mut address, &mut clocks) else {
            operand_a.take_back(registers);
            registers[0] = registers[0].wrapping_sub(1);
            return Err(STOPPED);
        };
        let Some(b) = self.take(operand_b, registers, &mut address, &mut clocks) else {
            operand_b.take_back(registers);
            operand_a.take_back(registers);
            registers[0] = registers[0].wrapping_sub(1);
            return Err(STOPPED);
        };
        let (result, stored) = self.compute(word, a, b);
        if stored {
            clocks += 1;
            if operand_b.mode == DIRECT {
                registers[operand_b.register] = result;
            } else {
                clocks += self.store(address, b, result).ok_or(JOURNAL_FULL)?;
            }
        }
        operand_a.step_up(registers);
        operand_b.step_up(registers);
        Ok(clocks)
    }

    /// The wait of the next access.
    #[inline(always)]
    fn wait(&mut self) -> u64 {
        if WAITS {
            if let Some(&wait) = self.waits.get(self.position) {
                self.position += 1;
                if self.position == self.waits.len() {
                    self.position = 0;
                }
                return u64::from(wait);
            }
        }
        0
    }

    /// An operand's value; `address` is set if it is in memory.
    #[inline(always)]
    fn take(
        &mut self,
        operand: Operand,
        registers: &mut [u32; 8],
        address: &mut usize,
        clocks: &mut u64,
    ) -> Option<u32> {
        operand.step_down(registers);
        let content = registers[operand.register];
        if operand.mode == DIRECT {
            return Some(content);
        }
        *address = content as usize;
        let value = *self.memory.get(*address)?;
        *clocks += 1 + self.wait();
        Some(value)
    }

    /// Sets the permitted flags; returns the result and whether it is stored.
    #[inline(always)]
    fn compute(&mut self, word: u32, a: u32, b: u32) -> (u32, bool) {
        let operation = word >> 16 & 15;
        let (stored, (result, carry, overflow)) = if word & 0x8000 != 0 {
            (self.condition(operation), (a, false, false))
        } else {
            (true, word_unit(operation, a, b, self.carry))
        };
        if word & 0x400 != 0 {
            self.zero = result == 0;
        }
        if word & 0x800 != 0 {
            self.negative = result >> 31 != 0;
        }
        if word & 0x1000 != 0 {
            self.overflow = overflow;
        }
        if word & 0x2000 != 0 {
            self.carry = carry;
        }
        (result, stored)
    }

    #[inline(always)]
    fn condition(&self, number: u32) -> bool {
        match number {
            0 => !self.carry,
            1 => self.carry,
            2 => !self.overflow,
            3 => self.overflow,
            4 => !self.zero,
            5 => self.zero,
            6 => !self.negative,
            7 => self.negative,
            _ => true,
        }
    }

    /// Returns the wait, or nothing where the journal is full.
    #[inline(always)]
    fn store(&mut self, address: usize, former: u32, word: u32) -> Option<u64> {
        if address >= self.bottom {
            if JOURNAL && !self.journal.note(address, former) {
                return None;
            }
            self.memory[address] = word;
        }
        Some(self.wait())
    }
}
