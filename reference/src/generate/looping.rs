//! Programs that go round for some thousands of instructions and never leave memory.

use super::flags;
use super::halting::halting_bits;
use super::position::position;
use super::program::{data_word, tame_word, waits, Program};
use crate::instruction::{Instruction, Operand};
use crate::machine::{Flags, Machine};
use crate::rng::Rng;
use std::ops::Range;

/// Instructions of a turn besides its body: four loads, and the three of its end.
const AROUND_BODY: u32 = 4 + 3;

/// Sets the pointers r4 to r7 to the middle of its data, does a few tame
/// instructions, counts the turn and begins again. One in four has its turns
/// counted down to 0 and halts before its count has run.
pub fn looping_program(rng: &mut Rng) -> Program {
    let count = rng.between(2_000, 5_000) as u32;
    let body = rng.between(2, 24);
    let turns = (count - 1) / (AROUND_BODY + body as u32);
    // From 0 it would take 2^32 turns.
    let counter = if rng.one_in(4) { turns } else { 0 };
    let memory = memory(rng, body, counter);
    let waits = waits(rng, count as usize);
    Program {
        bottom: bottom(rng, code_length(body), memory.len()),
        memory,
        position: position(rng, waits.len()),
        waits,
        start: Machine {
            registers: [0, rng.word(), rng.word(), rng.word(), 0, 0, 0, 0],
            flags: flags(rng),
        },
        count,
    }
}

/// 0 every other time; else the code, to which nothing is stored, or more: some of the
/// data and at times the counter, which then stands still.
fn bottom(rng: &mut Rng, code: usize, length: usize) -> u32 {
    match rng.below(4) {
        0 | 1 => 0,
        2 => code as u32,
        _ => rng.between(code, length) as u32,
    }
}

/// Words of the four loads.
const LOADS: usize = 2 * 4;

/// Words of the code with so many tame instructions.
fn code_length(body: usize) -> usize {
    LOADS + body + 6
}

/// Where a looping program has its tame instructions: up to the end of its turn, which is
/// the only place that loads r4 again.
pub(super) fn body(program: &Program) -> Range<usize> {
    let code = &program.memory[LOADS..];
    let end = code.iter().position(|&word| word == load(4));
    LOADS..LOADS + end.expect("a turn has an end")
}

/// The code with so many tame instructions, the data, and the counter.
fn memory(rng: &mut Rng, body: usize, counter: u32) -> Vec<u32> {
    let code = code_length(body);
    // An instruction steps a pointer by two at most.
    let data = 4 * body + 1;
    let mut memory = Vec::with_capacity(code + data + 1);
    for pointer in 4..8 {
        memory.extend([load(pointer), (code + 2 * body) as u32]);
    }
    memory.extend((0..body).map(|_| tame_word(rng)));
    memory.extend(end_of_turn(rng, code + data));
    memory.extend((0..data).map(|_| data_word(rng, code + data)));
    memory.push(counter);
    memory
}

/// Counts the word at `counter` down, and begins again unless it is now 0.
fn end_of_turn(rng: &mut Rng, counter: usize) -> [u32; 6] {
    let decrement = Instruction {
        a: Operand::Indirect(4),
        b: Operand::Indirect(4),
        permit: Flags {
            zero: true,
            ..Flags::default()
        },
        is_move: false,
        operation: 5,
    };
    let jump_if_not_zero = Instruction {
        is_move: true,
        operation: 4,
        ..Instruction::decode(load(0))
    };
    [
        load(4),
        counter as u32,
        decrement.encode(),
        jump_if_not_zero.encode(),
        // The word taken steps r0 up too, to 0.
        u32::MAX,
        tame_word(rng) | halting_bits(rng),
    ]
}

/// The register is set to the word behind the instruction.
pub(super) fn load(register: u8) -> u32 {
    let instruction = Instruction {
        a: Operand::After(0),
        b: Operand::Direct(register),
        permit: Flags::default(),
        is_move: false,
        operation: 0,
    };
    instruction.encode()
}
