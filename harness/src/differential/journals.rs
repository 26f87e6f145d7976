//! The journal of a file run (CR 11) at every border: which instruction finds no pair left,
//! and what comes before that; and file runs with far more stores than pairs.

use super::programs::compare_file_run;
use super::Check;
use crate::words::compute;
use reference::generate::program::Program;
use reference::{Machine, Operand, HALTING_BITS};
use Operand::{After, Before, Direct, Indirect};

/// Where the data are, to which the stores go.
const DATA: u32 = 12;
const LENGTH: u32 = 24;

/// The most stores before the instruction at the border.
const STORES: usize = 4;

/// Operations.
const MOVE: u8 = 0;
const INCREMENT: u8 = 1;
const ADD: u8 = 3;

/// No flag is permitted.
const NONE: [bool; 4] = [false; 4];

/// Returns how many file runs were compared.
pub fn check() -> Result<usize, String> {
    let mut calls = 0;
    for stores in 0..=STORES {
        for last in lasts() {
            calls += check_border(stores, last)?;
        }
    }
    calls += check_turns()?;
    calls += check_addresses()?;
    Ok(calls)
}

/// Words at the border: a store to a new address; to a noted one; of an equal word; with A
/// or B missing; one that halts; to a register; and moves under each condition.
fn lasts() -> Vec<u32> {
    let [r1, new, absent] = [Direct(1), Indirect(3), Indirect(4)];
    let mut lasts = vec![
        compute(ADD, [true; 4], r1, new),
        compute(ADD, NONE, r1, Before(2)),
        compute(ADD, NONE, r1, After(3)),
        compute(MOVE, NONE, new, new),
        compute(ADD, NONE, absent, new),
        compute(ADD, NONE, After(4), new),
        compute(ADD, NONE, r1, absent),
        compute(ADD, NONE, new, absent),
        compute(ADD, NONE, r1, new) | HALTING_BITS,
        compute(ADD, NONE, r1, new) | 1 << 14,
        compute(INCREMENT, [true; 4], r1, r1),
        compute(MOVE, NONE, After(0), Direct(0)),
        // Over the word that runs next, which is no instruction then.
        compute(ADD, NONE, absent, Indirect(0)),
        compute(MOVE, NONE, Direct(5), Indirect(0)),
    ];
    lasts.extend((0..16).map(|condition| compute(condition, NONE, r1, new) | 0x8000));
    lasts
}

/// So many stores to new addresses, the word at the border, and two stores more.
fn program(stores: usize, last: u32) -> Program {
    let store = compute(ADD, NONE, Direct(1), After(2));
    let mut memory = vec![store; stores];
    memory.extend([last, store, store]);
    memory.resize(DATA as usize, HALTING_BITS);
    memory.extend((DATA..LENGTH).map(|at| 100 + at));
    Program {
        memory,
        bottom: 0,
        waits: Vec::new(),
        position: 0,
        start: Machine {
            registers: [0, 7, DATA, LENGTH - 2, LENGTH, HALTING_BITS, 0, 0],
            ..Machine::default()
        },
        count: 0,
    }
}

/// Ends around the border; journals of every length up to more than enough; and bottoms
/// below, between and above the addresses.
fn check_border(stores: usize, last: u32) -> Result<usize, String> {
    let mut program = program(stores, last);
    let mut calls = 0;
    for bottom in [0, DATA, DATA + 1, LENGTH - 2, LENGTH - 1, LENGTH] {
        program.bottom = bottom;
        for count in stores.saturating_sub(1)..=stores + 3 {
            program.count = count as u32;
            for places in 0..=2 * stores + 9 {
                compare_file_run(&program, places)?;
                calls += 1;
            }
        }
    }
    Ok(calls)
}

/// Three accumulators in turn, for more instructions than there could be before.
fn check_turns() -> Result<usize, String> {
    let to = |register| compute(ADD, NONE, Direct(1), Indirect(register));
    let mut memory = vec![to(2), to(3), to(5), to(3)];
    // The word taken steps r0 up too, to 0.
    memory.extend([compute(MOVE, NONE, After(0), Direct(0)), u32::MAX]);
    memory.resize(DATA as usize, HALTING_BITS);
    memory.extend([40, 50, 60, 70]);
    let mut program = Program {
        memory,
        bottom: 0,
        waits: Vec::new(),
        position: 0,
        start: Machine {
            registers: [0, 7, DATA, DATA + 2, 0, DATA + 1, 0, 0],
            ..Machine::default()
        },
        count: 0,
    };
    let mut calls = 0;
    for bottom in [0, DATA + 1, DATA + 2, DATA + 3] {
        program.bottom = bottom;
        for count in [65_535, 65_536, 65_537, 131_072, 131_073, 300_000] {
            program.count = count;
            for places in [0, 1, 2, 3, 4, 5, 6, 7, 8, 1_000] {
                compare_file_run(&program, places)?;
                calls += 1;
            }
        }
    }
    Ok(calls)
}

/// 100,000 addresses, up and down: enough pairs, one fewer, one more, and a place between.
fn check_addresses() -> Result<usize, String> {
    const ADDRESSES: u32 = 100_000;
    let ends = [(After(2), DATA), (Before(2), DATA + ADDRESSES)];
    for (b, r2) in ends {
        let jump = compute(MOVE, NONE, After(0), Direct(0));
        let mut memory = vec![compute(ADD, NONE, Direct(1), b), jump, u32::MAX];
        memory.resize(DATA as usize, HALTING_BITS);
        memory.extend((0..ADDRESSES).map(|at| at ^ 0x5A5A));
        let program = Program {
            memory,
            bottom: DATA,
            waits: Vec::new(),
            position: 0,
            start: Machine {
                registers: [0, 7, r2, 0, 0, 0, 0, 0],
                ..Machine::default()
            },
            count: 2 * ADDRESSES,
        };
        check_places(&program, 2 * ADDRESSES as usize)?;
    }
    Ok(2 * AROUND.len())
}

/// Places around enough ones, by two too many.
const AROUND: [usize; 6] = [0, 1, 2, 3, 4, 1_002];

fn check_places(program: &Program, enough: usize) -> Check {
    for around in AROUND {
        compare_file_run(program, enough + around - 2)?;
    }
    Ok(())
}
