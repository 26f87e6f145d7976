//! Words that are no instruction (CR 5): each of the thirteen bits alone, and all of
//! them, in each kind of run.

use super::gates::{check_clocks, check_gate_run};
use super::programs::{self, Tally};
use super::Check;
use crate::words::compute;
use fm8502::library::{self, HALTED, MACHINE_SIZE};
use reference::generate::halting::BIT_NUMBERS;
use reference::generate::program::Program;
use reference::generate::state::gate_state;
use reference::rng::Rng;
use reference::{GateState, Machine, Operand, HALTING_BITS};

/// Adds 1 to r1.
const INCREMENT: u32 = 0x0001_0021;

/// Waits of the first instructions and of the word that halts, and one past it.
const WAITS: [&[u16]; 4] = [&[], &[0], &[2, 3, 0, 5], &[7, 1]];

/// Some end before the word, some just before it.
const COUNTS: [u32; 5] = [0, 1, 2, 3, 6];

/// None, the first word, the one stored ahead of r0 too, and all of a memory.
const BOTTOMS: [u32; 4] = [0, 1, 2, u32::MAX];

/// More clocks than any of the programs takes until it halts.
const CLOCKS: usize = 80;

/// Returns how many words there are.
pub fn check(rng: &mut Rng, tally: &mut Tally) -> Result<usize, String> {
    let bits: Vec<u32> = BIT_NUMBERS.iter().map(|bit| 1 << bit).collect();
    for &bits in bits.iter().chain(&[HALTING_BITS]) {
        check_bits(rng, bits, tally)?;
    }
    Ok(bits.len() + 1)
}

fn check_bits(rng: &mut Rng, bits: u32, tally: &mut Tally) -> Check {
    for waits in WAITS {
        for (memory, start) in programs(bits) {
            let mut program = Program {
                memory,
                bottom: 0,
                waits: waits.to_vec(),
                position: 0,
                start,
                count: 0,
            };
            for bottom in BOTTOMS {
                program.bottom = bottom.min(program.memory.len() as u32);
                check_counts(rng, &mut program, tally)?;
            }
        }
        check_lent(rng, bits, waits)?;
    }
    check_written(bits)
}

fn check_counts(rng: &mut Rng, program: &mut Program, tally: &mut Tally) -> Check {
    check_clocks(program, GateState::start(program.start), CLOCKS)?;
    for count in COUNTS {
        program.count = count;
        programs::check_program(rng, program, tally)?;
    }
    Ok(())
}

/// Flags that are lent as 9 are read as 1, and so written: the machine is written.
fn check_written(bits: u32) -> Check {
    let mut machine = [0; MACHINE_SIZE];
    machine[8..].fill(9);
    let mut result = [7; 3];
    let memory = &mut [INCREMENT, INCREMENT | bits];
    let code = library::run(memory, 0, &[2, 0, 9], 2, &mut machine, 9, &mut result);
    let due = [1, 1, 0, 0, 0, 0, 0, 0, 1, 1, 1, 1];
    if (code, machine, result) == (HALTED, due, [1, 18, 0]) {
        return Ok(());
    }
    Err(format!(
        "a run with flags of 9, bits {bits:08X}: code {code}, machine {machine:?}, result {result:?}\n"
    ))
}

/// A machine whose registers after r0 are these.
fn machine(registers: [u32; 3]) -> Machine {
    let mut machine = Machine::default();
    machine.registers[1..4].copy_from_slice(&registers);
    machine
}

/// Programs that meet the word, or just do not.
fn programs(bits: u32) -> Vec<(Vec<u32>, Machine)> {
    let word = INCREMENT | bits;
    let [r1, at_r2] = [Operand::Direct(1), Operand::Indirect(2)];
    // Operation 3 adds, 0 moves.
    let [add, store_ahead] = [3, 0].map(|operation| compute(operation, [true; 4], r1, at_r2));
    let both_down = compute(3, [true; 4], Operand::Before(1), Operand::Before(2));
    let constant = compute(0, [true; 4], Operand::After(0), Operand::Direct(3));
    vec![
        (vec![word], machine([1, 2, 3])),
        (vec![bits, INCREMENT], machine([1, 2, 3])),
        (vec![INCREMENT, INCREMENT, word, INCREMENT], machine([5; 3])),
        // Two stores to one word, which a file run takes back.
        (vec![add, add, word, 50], machine([7, 3, 0])),
        // Operands that are missing, one or both.
        (vec![both_down | bits, 0], machine([100, 1, 0])),
        (vec![both_down | bits, 0], machine([1, 100, 0])),
        (vec![both_down | bits, 0], machine([100, 100, 0])),
        // Missing itself: the one instruction is followed by nothing.
        (vec![INCREMENT], machine([word; 3])),
        // Read as a constant and stepped over.
        (vec![constant, word, INCREMENT, bits], machine([0; 3])),
        // Stored ahead of r0, and repaired there.
        (
            vec![store_ahead, INCREMENT, INCREMENT],
            machine([word, 1, 0]),
        ),
        (vec![store_ahead, word, word], machine([INCREMENT, 1, 0])),
    ]
}

/// Lent states: in row 12; about to read the word, or with that read begun, in row 1;
/// with the word in the instruction latch in each row.
fn check_lent(rng: &mut Rng, bits: u32, waits: &[u16]) -> Check {
    let program = Program {
        memory: vec![INCREMENT, INCREMENT | bits, 0, 1],
        bottom: 0,
        waits: waits.to_vec(),
        position: 0,
        start: Machine::default(),
        count: 0,
    };
    for row in 0..=12 {
        let lent = GateState {
            row,
            address: 1,
            begun: false,
            left: 0,
            ..gate_state(rng, program.memory.len(), waits.len())
        };
        let latched = GateState {
            instruction: lent.instruction | bits,
            ..lent
        };
        check_clocks(&program, latched, CLOCKS)?;
        check_gate_run(&program, &[], &lent, 40)?;
    }
    check_long_runs(rng, &program)
}

/// As many clocks as a run can be given, in which the word is read or has been.
fn check_long_runs(rng: &mut Rng, program: &Program) -> Check {
    for (row, begun, left) in [(12, false, 0), (1, false, 0), (1, true, 1), (1, true, 300)] {
        let lent = GateState {
            row,
            address: 1,
            begun,
            left,
            ..gate_state(rng, program.memory.len(), program.waits.len())
        };
        for clocks in [0, 1, 2, 300, 301, u64::MAX] {
            check_gate_run(program, &[], &lent, clocks)?;
        }
    }
    Ok(())
}
