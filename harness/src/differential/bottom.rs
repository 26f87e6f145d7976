//! The bottom of memory (CR 6) at every border of a store, in each kind of run; the
//! order of the reasons to refuse is in `refusals.rs` and `limits.rs`.

use super::gates::{check_clocks, check_gate_run};
use super::programs::{self, Tally};
use super::Check;
use crate::words::compute;
use reference::generate::program::Program;
use reference::generate::state::gate_state;
use reference::rng::Rng;
use reference::{GateState, Machine, Operand, HALTING_BITS};

/// Words of memory, and where the first store goes.
const LENGTH: u32 = 12;
const ADDRESS: u32 = 8;

/// Around the first word, the word stored to and the memory's end.
const BOTTOMS: [u32; 6] = [0, 1, ADDRESS, ADDRESS + 1, LENGTH - 1, LENGTH];
const REFUSED_BOTTOMS: [u32; 2] = [LENGTH + 1, u32::MAX];

/// B on r2, with r2 so that the store goes to the address, or, direct, into r2.
const OPERANDS: [(Operand, u32); 4] = [
    (Operand::Direct(2), ADDRESS),
    (Operand::Indirect(2), ADDRESS),
    (Operand::Before(2), ADDRESS + 1),
    (Operand::After(2), ADDRESS),
];

/// No list; an entry of 0; five entries that all differ; and one whose store waits long.
const WAITS: [&[u16]; 4] = [&[], &[0], &[1, 2, 3, 4, 5], &[0, 0, 7, 1]];

/// Words of the code, the last of which does not run.
const WORDS: u32 = 6;

/// More clocks than a program takes until it stops.
const CLOCKS: u64 = 120;

/// Returns how many programs and lent states there are.
pub fn check(rng: &mut Rng, tally: &mut Tally) -> Result<usize, String> {
    let mut cases = 0;
    for waits in WAITS {
        for mut program in programs(waits) {
            cases += check_bottoms(rng, &mut program, tally)?;
        }
        cases += check_lent_stores(rng, waits)?;
    }
    Ok(cases)
}

/// With each kind of B; the last word needs a missing word, or is no instruction.
fn programs(waits: &[u16]) -> Vec<Program> {
    let outside = add_r1(Operand::Indirect(7));
    let ends = [outside, outside | HALTING_BITS];
    let programs = OPERANDS.map(|operand| ends.map(|last| program(operand, last, waits)));
    programs.concat()
}

/// Adds r1 to B and sets all flags.
fn add_r1(b: Operand) -> u32 {
    compute(3, [true; 4], Operand::Direct(1), b)
}

/// The store; the word read back; stores to the last word and to the first; a store of
/// an equal word, after which r3 steps up twice; and the last word.
fn program((b, r2): (Operand, u32), last: u32, waits: &[u16]) -> Program {
    let words: [u32; WORDS as usize] = [
        add_r1(b),
        compute(0, [true; 4], Operand::Indirect(3), Operand::Direct(4)),
        add_r1(Operand::Indirect(5)),
        add_r1(Operand::Indirect(6)),
        compute(0, [true; 4], Operand::After(3), Operand::After(3)),
        last,
    ];
    let data = [0x77, 0x88, 50, 0x99, 0xAA, 0xBB];
    Program {
        memory: [words, data].concat(),
        bottom: 0,
        waits: waits.to_vec(),
        position: 0,
        start: Machine {
            // -50 onto the 50 at the address: the sum sets C and Z.
            registers: [0, u32::MAX - 49, r2, ADDRESS, 0, LENGTH - 1, 0, LENGTH],
            ..Machine::default()
        },
        count: 0,
    }
}

/// Returns how many bottoms there are.
fn check_bottoms(rng: &mut Rng, program: &mut Program, tally: &mut Tally) -> Result<usize, String> {
    for bottom in BOTTOMS {
        program.bottom = bottom;
        for count in 1..=WORDS {
            program.count = count;
            programs::check_program(rng, program, tally)?;
        }
        check_each_clock(program)?;
    }
    program.count = WORDS;
    for bottom in REFUSED_BOTTOMS {
        program.bottom = bottom;
        check_refused(program)?;
    }
    Ok(BOTTOMS.len() + REFUSED_BOTTOMS.len())
}

/// Through all stores: clock by clock, and by gate runs that end on each clock.
fn check_each_clock(program: &Program) -> Check {
    let state = GateState::start(program.start);
    check_clocks(program, state, CLOCKS as usize)?;
    for clocks in 0..=CLOCKS {
        check_gate_run(program, &[], &state, clocks)?;
    }
    Ok(())
}

fn check_refused(program: &Program) -> Check {
    let state = GateState::start(program.start);
    programs::compare_run(program)?;
    programs::compare_file_run(program, 2 * program.count as usize)?;
    check_gate_run(program, &[], &state, CLOCKS)?;
    check_clocks(program, state, 1)
}

/// States lent in row 9 with an address on each side of the bottom and past the memory,
/// the access begun or not. Returns how many.
fn check_lent_stores(rng: &mut Rng, waits: &[u16]) -> Result<usize, String> {
    let mut program = Program {
        memory: (0..LENGTH).map(|_| rng.word()).collect(),
        bottom: 0,
        waits: waits.to_vec(),
        position: 0,
        start: Machine::default(),
        count: 0,
    };
    let mut states = 0;
    for bottom in BOTTOMS {
        program.bottom = bottom;
        let below = bottom.saturating_sub(1);
        for address in [below, bottom, LENGTH, LENGTH + 1, u32::MAX] {
            states += check_lent_store(rng, &program, address)?;
        }
    }
    Ok(states)
}

/// Returns how many states there are.
fn check_lent_store(rng: &mut Rng, program: &Program, address: u32) -> Result<usize, String> {
    const ACCESSES: [(bool, u16); 4] = [(false, 0), (true, 1), (true, 2), (true, u16::MAX)];
    for (begun, left) in ACCESSES {
        let lent = GateState {
            row: 9,
            address,
            begun,
            left,
            ..gate_state(rng, program.memory.len(), program.waits.len())
        };
        check_clocks(program, lent, 5)?;
        for clocks in [0, 1, 2, 3, 301, 1 << 16] {
            check_gate_run(program, &[], &lent, clocks)?;
        }
    }
    Ok(ACCESSES.len())
}
