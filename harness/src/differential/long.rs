//! As far as the rules let a run go: a wait list that comes round many times, a
//! full one that comes round, a journal of 65,536 pairs, and a clock total of more than 32
//! bits.

use super::programs::{self, Tally};
use super::Check;
use crate::words::compute;
use reference::generate::halting::halting_bits;
use reference::generate::program::Program;
use reference::refusal::MOST_WAITS;
use reference::rng::Rng;
use reference::{Machine, Operand};

// Operations.
const MOVE: u8 = 0;
const INCREMENT: u8 = 1;
const ADD: u8 = 3;

/// Where the turns are counted, the last word; with a bottom past it they are not.
const COUNTER: u32 = 3;
const AROUND_COUNTER: [u32; 3] = [0, COUNTER, COUNTER + 1];

/// Stores of a long file run, each to a word of its own.
const STORES: u32 = 65_536;

/// All of them are above the bottom; or half, as the first half is below.
const AROUND_STORES: [u32; 2] = [0, STORES / 2 * 3];

/// No flag is permitted.
const NONE: [bool; 4] = [false; 4];

pub fn check(rng: &mut Rng, tally: &mut Tally) -> Check {
    for entries in [1, 2, 3, 5, MOST_WAITS] {
        // Two entries in a row differ, the last and the first too: a wrong one is seen.
        let waits = (0..entries).map(|i| (i % 7) as u16 + 1).collect();
        let mut program = crossing_its_list(waits);
        for bottom in AROUND_COUNTER {
            program.bottom = bottom;
            check_ends(rng, &mut program, tally)?;
        }
    }
    let store = compute(ADD, NONE, Operand::Direct(1), Operand::After(4));
    let outside = compute(ADD, NONE, Operand::Direct(1), Operand::Before(5));
    let no_instruction = store | halting_bits(rng);
    for last in [store, outside, no_instruction] {
        let mut program = full_journal(rng, store, last);
        for bottom in AROUND_STORES {
            program.bottom = bottom;
            programs::check_program(rng, &program, tally)?;
        }
    }
    check_long_total(tally)
}

/// From the first entry of the list, and from the last.
fn check_ends(rng: &mut Rng, program: &mut Program, tally: &mut Tally) -> Check {
    for position in [0, program.waits.len() - 1] {
        program.position = position as u32;
        programs::check_program(rng, program, tally)?;
    }
    Ok(())
}

/// A gate run of so many clocks would take too long.
fn check_long_total(tally: &mut Tally) -> Check {
    let mut program = crossing_its_list(vec![u16::MAX; MOST_WAITS]);
    for bottom in AROUND_COUNTER {
        program.bottom = bottom;
        let total = programs::check_run(&program, tally)?.result[1];
        if total <= u64::from(u32::MAX) {
            return Err(format!("a clock total of {total} is of 32 bits\n"));
        }
    }
    Ok(())
}

/// Two instructions in a loop, six accesses a turn, until a full list has begun
/// again, and a short one hundreds of times: the last word counts the turns, and the
/// jump takes r0 to the top address, from which it steps up to 0.
fn crossing_its_list(waits: Vec<u16>) -> Program {
    let mut start = Machine::default();
    start.registers[4] = COUNTER;
    let turns = waits.len() as u32 / 6 + 400;
    Program {
        memory: vec![
            compute(INCREMENT, NONE, Operand::Indirect(4), Operand::Indirect(4)),
            compute(MOVE, NONE, Operand::After(0), Operand::Direct(0)),
            u32::MAX,
            0,
        ],
        bottom: 0,
        waits,
        position: 0,
        start,
        count: 2 * turns,
    }
}

/// The last of the stores may be another word.
fn full_journal(rng: &mut Rng, store: u32, last: u32) -> Program {
    let count = STORES as usize;
    let mut memory = vec![store; count];
    memory[count - 1] = last;
    memory.extend((0..count).map(|_| rng.word()));
    let mut start = Machine::default();
    start.registers[1] = 7;
    start.registers[4] = STORES;
    Program {
        memory,
        bottom: 0,
        waits: Vec::new(),
        position: 0,
        start,
        count: STORES,
    }
}
