//! The gate machine in Rust, written for speed: a local state and a match on the row.

use super::gate_unit::gate_unit;
use super::operand::{Operand, DIRECT};
use super::HALTING_BITS;
use fm8502::library::{DONE, MACHINE_SIZE};

#[derive(Clone, Copy)]
struct State {
    registers: [u32; 8],
    /// C 8, V 4, N 2, Z 1: the order of the permit bits.
    flags: u32,
    row: u32,
    instruction: u32,
    address: u32,
    a: u32,
    b: u32,
    result: u32,
    position: u32,
    begun: bool,
    left: u32,
}

/// Where the machine stays once it has read a word that is no instruction.
const HALTED_ROW: u32 = 12;
/// The row after each, where the instruction does not decide.
const NEXT: [u32; 13] = [1, 2, 3, 4, 5, 6, 7, 8, 10, 10, 11, 0, HALTED_ROW];
const IS_ACCESS: [bool; 13] = [
    false, true, false, false, true, false, true, false, false, true, false, false, false,
];

/// What became of one clock.
enum Clock {
    Moved,
    Finished,
    /// Nothing changes any more before a reset.
    Stays,
}

#[inline(never)]
pub fn gate_run(
    memory: &mut [u32],
    bottom: u32,
    waits: &[u16],
    resets: &[u64],
    words: &mut [u32],
    clocks: u64,
    result: &mut [u64],
) -> u32 {
    let mut state = State::of(words);
    let mut finished = 0;
    // The clock after the last reset.
    let mut begin = 0;
    for &reset in resets.iter().take_while(|&&reset| reset < clocks) {
        finished += state.clocks(memory, bottom, waits, reset - begin);
        state.reset();
        begin = reset + 1;
    }
    finished += state.clocks(memory, bottom, waits, clocks - begin);
    state.give(words);
    result[0] = finished;
    DONE
}

impl State {
    fn of(words: &[u32]) -> State {
        let mut registers = [0; 8];
        registers.copy_from_slice(&words[..8]);
        State {
            registers,
            flags: words[8..MACHINE_SIZE]
                .iter()
                .fold(0, |flags, bit| 2 * flags + bit),
            row: words[12],
            instruction: words[13],
            address: words[14],
            a: words[15],
            b: words[16],
            result: words[17],
            position: words[18],
            begun: words[19] != 0,
            left: words[20],
        }
    }

    fn give(&self, words: &mut [u32]) {
        words[..8].copy_from_slice(&self.registers);
        for (i, word) in words[8..MACHINE_SIZE].iter_mut().enumerate() {
            *word = self.flags >> (3 - i) & 1;
        }
        words[MACHINE_SIZE..].copy_from_slice(&[
            self.row,
            self.instruction,
            self.address,
            self.a,
            self.b,
            self.result,
            self.position,
            u32::from(self.begun),
            self.left,
        ]);
    }

    /// Returns how many instructions finished.
    #[inline(always)]
    fn clocks(&mut self, memory: &mut [u32], bottom: u32, waits: &[u16], clocks: u64) -> u64 {
        let mut finished = 0;
        for _ in 0..clocks {
            match self.clock(memory, bottom, waits) {
                Clock::Moved => {}
                Clock::Finished => finished += 1,
                Clock::Stays => break,
            }
        }
        finished
    }

    fn reset(&mut self) {
        self.registers[0] = 0;
        self.row = 0;
        self.begun = false;
        self.left = 0;
    }

    #[inline(always)]
    fn clock(&mut self, memory: &mut [u32], bottom: u32, waits: &[u16]) -> Clock {
        let row = self.row as usize;
        let mut next = NEXT[row];
        if IS_ACCESS[row] && self.address as usize >= memory.len() {
            return Clock::Stays;
        }
        if IS_ACCESS[row] && !self.access(waits) {
            return Clock::Moved;
        }
        let a = Operand::of(self.instruction);
        let b = Operand::of(self.instruction >> 5);
        match row {
            0 => self.address = self.registers[0],
            1 => {
                self.instruction = memory[self.address as usize];
                if self.instruction & HALTING_BITS != 0 {
                    next = HALTED_ROW;
                }
            }
            2 => self.registers[0] = self.registers[0].wrapping_add(1),
            3 => next = self.take_a(a),
            4 => self.a = memory[self.address as usize],
            5 => next = self.take_b(b),
            6 => self.b = memory[self.address as usize],
            7 => next = self.compute(b),
            8 => self.registers[b.register] = self.result,
            9 if self.address >= bottom => memory[self.address as usize] = self.result,
            10 => a.step_up(&mut self.registers),
            11 => {
                b.step_up(&mut self.registers);
                self.row = 0;
                return Clock::Finished;
            }
            12.. => return Clock::Stays,
            _ => {}
        }
        self.row = next;
        Clock::Moved
    }

    /// Whether the access, to a word that is there, completes on this clock.
    #[inline(always)]
    fn access(&mut self, waits: &[u16]) -> bool {
        if self.begun {
            self.left -= 1;
            self.begun = self.left > 0;
        } else if let Some(&wait) = waits.get(self.position as usize) {
            self.position += 1;
            if self.position as usize == waits.len() {
                self.position = 0;
            }
            self.left = u32::from(wait);
            self.begun = wait > 0;
        }
        !self.begun
    }

    #[inline(always)]
    fn take_a(&mut self, operand: Operand) -> u32 {
        operand.step_down(&mut self.registers);
        let word = self.registers[operand.register];
        if operand.mode == DIRECT {
            self.a = word;
            return 5;
        }
        self.address = word;
        4
    }

    #[inline(always)]
    fn take_b(&mut self, operand: Operand) -> u32 {
        operand.step_down(&mut self.registers);
        let word = self.registers[operand.register];
        if operand.mode == DIRECT {
            self.b = word;
            return 7;
        }
        self.address = word;
        6
    }

    #[inline(always)]
    fn compute(&mut self, operand: Operand) -> u32 {
        let operation = self.instruction >> 16 & 15;
        let is_move = self.instruction & 0x8000 != 0;
        let stored = !is_move || condition(operation, self.flags);
        let (result, carry, overflow) = if is_move {
            (self.a, false, false)
        } else {
            gate_unit(operation, self.a, self.b, self.flags & 8 != 0)
        };
        let permits = self.instruction >> 10 & 15;
        let computed = u32::from(carry) << 3
            | u32::from(overflow) << 2
            | result >> 31 << 1
            | u32::from(result == 0);
        self.flags = self.flags & !permits | computed & permits;
        self.result = result;
        match operand.mode {
            _ if !stored => 10,
            DIRECT => 8,
            _ => 9,
        }
    }
}

#[inline(always)]
fn condition(number: u32, flags: u32) -> bool {
    match number {
        0 => flags & 8 == 0,
        1 => flags & 8 != 0,
        2 => flags & 4 == 0,
        3 => flags & 4 != 0,
        4 => flags & 1 == 0,
        5 => flags & 1 != 0,
        6 => flags & 2 == 0,
        7 => flags & 2 != 0,
        _ => true,
    }
}
