//! Programs with their memory, bottom, wait list, list position, start and count.

use super::bottom::bottom;
use super::flags;
use super::halting::halting_bits;
use super::position::position;
use crate::gates::GateState;
use crate::instruction::{Instruction, Operand, HALTING_BITS};
use crate::interpreter::step;
use crate::machine::Machine;
use crate::rng::Rng;

/// One instruction word in so many is made to halt the card.
const WORDS_PER_HALTING: usize = 30;

/// One call of a run.
#[derive(Clone, Debug, PartialEq, Eq)]
pub struct Program {
    pub memory: Vec<u32>,
    /// No word below it changes (CR 6).
    pub bottom: u32,
    pub waits: Vec<u16>,
    /// Which entry of the wait list the first access takes (CR 7).
    pub position: u32,
    pub start: Machine,
    pub count: u32,
}

impl Program {
    /// How many of the stores of its run are below its bottom.
    pub fn stores_below_bottom(&self) -> usize {
        let (mut memory, mut machine) = (self.memory.clone(), self.start);
        let steps =
            (0..self.count).map_while(|_| step(&mut memory, self.bottom, &mut machine).ok());
        steps.filter(|step| step.below_bottom).count()
    }

    /// The gate machine between instructions, where the run starts, with these latches.
    pub fn gate_start(&self, latches: GateState) -> GateState {
        GateState {
            registers: self.start.registers,
            flags: self.start.flags,
            row: 0,
            position: self.position,
            begun: false,
            left: 0,
            ..latches
        }
    }
}

/// What a program is meant to provoke. Uniformly random words soon run outside,
/// so most kinds keep their pointers within memory; and nearly all of them would
/// halt, so most instruction words have no halting bit.
#[derive(Clone, Copy, Debug, PartialEq, Eq)]
pub enum Kind {
    /// Code below, data above; r4 to r7 are pointers that only step.
    Tame,
    /// Pointers into the code, instruction words in the registers.
    SelfModifying,
    /// r0 as A or B: constants behind the instruction, jumps, stores ahead.
    ProgramCounter,
    /// Both operands on one register.
    OneRegister,
    /// All fields of all words alike.
    Uniform,
    /// Any fields in memory, any 32 bits in registers.
    Wild,
}

pub const KINDS: [Kind; 6] = [
    Kind::Tame,
    Kind::SelfModifying,
    Kind::ProgramCounter,
    Kind::OneRegister,
    Kind::Uniform,
    Kind::Wild,
];

/// A program of any kind, the tame ones being more frequent.
pub fn any_program(rng: &mut Rng) -> Program {
    let kind = if rng.one_in(3) {
        Kind::Tame
    } else {
        rng.pick(&KINDS)
    };
    program(rng, kind)
}

pub fn program(rng: &mut Rng, kind: Kind) -> Program {
    let length = match kind {
        Kind::Tame | Kind::SelfModifying => rng.between(16, 48),
        _ if rng.one_in(10) => rng.between(1, 4),
        _ => rng.between(4, 48),
    };
    let memory = (0..length).map(|at| word(rng, kind, at, length)).collect();
    let count = rng.between(0, 20) as u32;
    let waits = waits(rng, count as usize);
    let start = start(rng, kind, length);
    Program {
        memory,
        bottom: bottom(rng, length, &start.registers),
        position: position(rng, waits.len()),
        waits,
        start,
        count,
    }
}

/// The word at `at` of a memory of `length` words.
fn word(rng: &mut Rng, kind: Kind, at: usize, length: usize) -> u32 {
    match kind {
        Kind::Tame if at >= length / 2 => data_word(rng, length),
        // A small word serves as constant and, run into, as an instruction.
        Kind::ProgramCounter if at % 2 == 1 => rng.below(length) as u32,
        _ => code_word(rng, kind),
    }
}

fn code_word(rng: &mut Rng, kind: Kind) -> u32 {
    let instruction = instruction_word(rng, kind);
    if rng.one_in(WORDS_PER_HALTING) {
        instruction | halting_bits(rng)
    } else {
        instruction
    }
}

fn instruction_word(rng: &mut Rng, kind: Kind) -> u32 {
    match kind {
        Kind::Tame => tame_word(rng),
        Kind::SelfModifying => self_modifying_word(rng),
        Kind::ProgramCounter => program_counter_word(rng),
        Kind::OneRegister => {
            let register = rng.below(8);
            let a = operand(rng, register);
            let b = operand(rng, register);
            encode(rng, a, b)
        }
        Kind::Uniform => {
            let a = any_operand(rng);
            let b = any_operand(rng);
            encode(rng, a, b)
        }
        Kind::Wild => rng.word() & !HALTING_BITS,
    }
}

/// Never writes a pointer or r0, so that it runs on.
pub(super) fn tame_word(rng: &mut Rng) -> u32 {
    let a = tame_operand(rng, 0);
    let b = tame_operand(rng, 1);
    encode(rng, a, b)
}

/// A direct operand from `lowest` to r3 or a memory operand on r4 to r7.
fn tame_operand(rng: &mut Rng, lowest: usize) -> Operand {
    match rng.below(4) {
        0 => Operand::Direct(rng.between(lowest, 3) as u8),
        mode => operand_of(mode, rng.between(4, 7)),
    }
}

pub(super) fn data_word(rng: &mut Rng, length: usize) -> u32 {
    match rng.below(3) {
        0 => rng.pick(&[0, 1, 0x7FFF_FFFF, 0x8000_0000, 0xFFFF_FFFF]),
        1 => rng.below(length) as u32,
        _ => rng.word(),
    }
}

/// Half of these copy an instruction word unchanged into memory.
fn self_modifying_word(rng: &mut Rng) -> u32 {
    if rng.flag() {
        return tame_word(rng);
    }
    let mode = rng.between(1, 3);
    let b = operand_of(mode, rng.between(4, 7));
    let mut instruction = Instruction::decode(tame_word(rng));
    instruction.b = b;
    instruction.is_move = rng.flag();
    instruction.operation = if instruction.is_move {
        rng.below(16) as u8
    } else {
        rng.pick(&[0, 15])
    };
    instruction.encode()
}

fn program_counter_word(rng: &mut Rng) -> u32 {
    let other = any_operand(rng);
    match rng.below(4) {
        // A constant; B may be anything.
        0 => encode(rng, Operand::After(0), other),
        // A jump, with operations that keep r0 small.
        1 => {
            let jump = encode(rng, Operand::After(0), Operand::Direct(0));
            let mut jump = Instruction::decode(jump);
            if !jump.is_move {
                jump.operation = rng.pick(&[0, 3, 11, 12, 13, 15]);
            }
            jump.encode()
        }
        2 => {
            let a = operand(rng, 0);
            encode(rng, a, other)
        }
        _ => {
            let b = operand(rng, 0);
            encode(rng, other, b)
        }
    }
}

fn any_operand(rng: &mut Rng) -> Operand {
    let register = rng.below(8);
    operand(rng, register)
}

/// The register in any mode.
fn operand(rng: &mut Rng, register: usize) -> Operand {
    operand_of(rng.below(4), register)
}

pub(super) fn operand_of(mode: usize, register: usize) -> Operand {
    Operand::decode((mode << 3 | register) as u32)
}

/// The operands with any operation, condition and permits.
pub(super) fn encode(rng: &mut Rng, a: Operand, b: Operand) -> u32 {
    let instruction = Instruction {
        a,
        b,
        permit: flags(rng),
        is_move: rng.one_in(3),
        operation: rng.below(16) as u8,
    };
    instruction.encode()
}

fn start(rng: &mut Rng, kind: Kind, length: usize) -> Machine {
    let mut registers = [0; 8];
    for (number, register) in registers.iter_mut().enumerate() {
        *register = match kind {
            _ if number == 0 => first_address(rng, kind, length),
            Kind::Tame if number < 4 => data_word(rng, length),
            Kind::Tame => rng.between(length * 5 / 8, length * 7 / 8) as u32,
            Kind::SelfModifying if number < 4 => code_word(rng, Kind::Tame),
            Kind::SelfModifying => rng.between(2, length - 3) as u32,
            Kind::Wild if rng.flag() => rng.word(),
            _ => any_address(rng, length),
        };
    }
    Machine {
        registers,
        flags: flags(rng),
    }
}

fn first_address(rng: &mut Rng, kind: Kind, length: usize) -> u32 {
    match kind {
        Kind::Tame | Kind::SelfModifying => 0,
        _ if rng.one_in(30) => any_address(rng, length),
        _ => rng.below(length.div_ceil(2)) as u32,
    }
}

/// Mostly within memory, at times at its ends or just past them.
fn any_address(rng: &mut Rng, length: usize) -> u32 {
    if rng.one_in(10) {
        let length = length as u32;
        rng.pick(&[0, length - 1, length, length + 1, u32::MAX])
    } else {
        rng.below(length) as u32
    }
}

/// None, a few that come round many times, fewer than the run needs, or more; now
/// and then one wait is very long.
pub(super) fn waits(rng: &mut Rng, count: usize) -> Vec<u16> {
    let entries = match rng.below(4) {
        0 => 0,
        1 => rng.pick(&[1, 2, 3, 5]),
        2 => rng.between(1, 4 * count + 1),
        _ => 4 * count + rng.below(9),
    };
    let highest = rng.pick(&[0, 1, 3, 3, 10, 40]);
    let mut waits: Vec<u16> = (0..entries)
        .map(|_| rng.between(0, highest) as u16)
        .collect();
    if entries > 0 && rng.one_in(200) {
        let at = rng.below(entries);
        waits[at] = if rng.flag() {
            u16::MAX
        } else {
            rng.word() as u16
        };
    }
    waits
}
