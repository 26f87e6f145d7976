//! Reset lists (CR 7) at every border: each clock of a program, each row of a lent state,
//! machines that stay where they are until a reset, and lists as long and as wide as can
//! be; the reasons to refuse a list are in `refusals.rs`.

use super::gates::check_gate_run;
use super::restarts::{check_list, check_restart};
use super::Check;
use crate::words::compute;
use reference::generate::program::Program;
use reference::generate::state::gate_state;
use reference::rng::Rng;
use reference::{GateState, Machine, Operand};

/// Adds 1 to r1.
const INCREMENT: u32 = 0x0001_0021;

/// No list; entries of 0; five that all differ; and one long wait among short ones.
const WAITS: [&[u16]; 4] = [&[], &[0, 0], &[1, 2, 3, 4, 5], &[0, 9, 0, 1]];

/// More clocks than the program below takes, with the longest of these waits.
const CLOCKS: u64 = 80;

/// Longer lists and longer runs cannot be given.
const MANY: u64 = 1_000_000;
const LAST: u64 = u64::MAX - 1;

/// Returns how many lists there are.
pub fn check(rng: &mut Rng) -> Result<usize, String> {
    let mut lists = 0;
    for waits in WAITS {
        for position in 0..waits.len().max(1) as u32 {
            lists += check_program(rng, &program(waits, position))?;
        }
        lists += check_lent(rng, waits)?;
        lists += check_staying(waits)?;
    }
    Ok(lists + check_many()?)
}

/// Instructions through every row: A and B in memory and a store there; operands and a
/// store in registers; a failed condition; and a word that halts.
fn program(waits: &[u16], position: u32) -> Program {
    let both = compute(3, [true; 4], Operand::After(1), Operand::After(2));
    let direct = compute(1, [true; 4], Operand::Direct(3), Operand::Direct(3));
    // If C, which the sum before it clears.
    let failing = compute(1, [true; 4], Operand::Direct(3), Operand::Indirect(2)) | 0x8000;
    Program {
        memory: vec![both, direct, failing, 1 << 20, 5, 6, 7, 8, 9, 10],
        bottom: 6,
        waits: waits.to_vec(),
        position,
        start: Machine {
            registers: [0, 4, 6, 3, 0, 0, 0, 0],
            ..Machine::default()
        },
        count: 3,
    }
}

/// A reset on each of its clocks, alone and with others around it, in runs that end
/// before it has an effect, just after it, and some clocks later.
fn check_program(rng: &mut Rng, program: &Program) -> Result<usize, String> {
    let state = program.gate_start(gate_state(rng, program.memory.len(), 0));
    let mut lists = 0;
    for number in 0..CLOCKS {
        let others = [
            vec![number],
            vec![number, number + 1],
            vec![number, number + 1, number + 2, number + 30],
            vec![number, number + 1 + rng.below(30) as u64, u64::MAX],
        ];
        for list in others {
            for clocks in [number, number + 1, number + 2, number + 40] {
                check_list(rng, program, &list, &state, clocks)?;
                lists += 1;
            }
        }
    }
    let every: Vec<u64> = (0..CLOCKS).collect();
    check_list(rng, program, &every, &state, CLOCKS)?;
    Ok(lists + 1)
}

/// Whether an access has begun, and its clocks left.
const ACCESSES: [(bool, u16); 4] = [(false, 0), (true, 1), (true, 2), (true, u16::MAX)];

/// States lent in each row, with an access begun where there can be one, at a word that
/// is there and at one that is not.
fn check_lent(rng: &mut Rng, waits: &[u16]) -> Result<usize, String> {
    let program = program(waits, 0);
    let words = program.memory.len();
    let mut lists = 0;
    for row in 0..=12 {
        let is_access = [1, 4, 6, 9].contains(&row);
        let accesses = if is_access { &ACCESSES } else { &ACCESSES[..1] };
        for &(begun, left) in accesses {
            for address in [0, words as u32 - 1, words as u32, u32::MAX] {
                let lent = GateState {
                    row,
                    address,
                    begun,
                    left,
                    ..gate_state(rng, words, waits.len())
                };
                lists += check_lent_state(rng, &program, &lent)?;
            }
        }
    }
    Ok(lists)
}

/// Resets on its first clocks, at its end and past it.
fn check_lent_state(rng: &mut Rng, program: &Program, lent: &GateState) -> Result<usize, String> {
    const LISTS: [&[u64]; 8] = [
        &[],
        &[0],
        &[1],
        &[0, 1],
        &[2],
        &[0, 2],
        &[0, 1, 2],
        &[u64::MAX],
    ];
    const ENDS: [u64; 5] = [0, 1, 2, 3, 14];
    for list in LISTS {
        for clocks in ENDS {
            check_list(rng, program, list, lent, clocks)?;
        }
    }
    Ok(LISTS.len() * ENDS.len())
}

/// Memories in which a program runs one instruction after each restart and then stays: at
/// an absent address in rows 1, 4 and 6, and in row 12. No program can come to stay in row
/// 9, so that one stays in 6 there. r7 is past each memory.
fn memories_that_stay() -> [(u8, Vec<u32>); 5] {
    let [r1, at_r7] = [Operand::Direct(1), Operand::Indirect(7)];
    let jump = compute(0, [false; 4], Operand::Direct(7), Operand::Direct(0));
    let from_r7 = compute(0, [true; 4], at_r7, r1);
    let to_r7 = compute(0, [true; 4], r1, at_r7);
    [
        (1, vec![jump]),
        (4, vec![INCREMENT, from_r7]),
        (6, vec![INCREMENT, to_r7]),
        (9, vec![INCREMENT, to_r7]),
        (12, vec![INCREMENT, INCREMENT | 1 << 14]),
    ]
}

/// Their programs, with states between instructions, and lent in that row, without an
/// access begun and with one. The last is in row 12.
fn staying(waits: &[u16]) -> Vec<(Program, GateState)> {
    let mut machines = Vec::new();
    for (row, memory) in memories_that_stay() {
        let program = Program {
            memory,
            bottom: 0,
            waits: waits.to_vec(),
            position: 0,
            start: Machine {
                registers: [0, 0, 0, 0, 0, 0, 0, 99],
                ..Machine::default()
            },
            count: 5,
        };
        let between = program.gate_start(GateState::default());
        let (address, begun, left) = (99, row != 12, u16::from(row != 12) * 3);
        let stays = GateState {
            row,
            address,
            ..between
        };
        let waiting = GateState {
            begun,
            left,
            ..stays
        };
        machines.extend([between, waiting, stays].map(|state| (program.clone(), state)));
    }
    machines
}

/// All the clocks that a run can be given, with resets far apart, on its last clocks, and
/// at its end, which has no effect.
fn check_staying(waits: &[u16]) -> Result<usize, String> {
    let lists = [
        vec![],
        vec![u64::MAX],
        vec![0, 1 << 32, 1 << 40, 1 << 63],
        vec![1_000, LAST],
        vec![LAST, u64::MAX],
        vec![1 << 62, LAST - 40, LAST - 20, LAST - 5],
        vec![LAST - 1, LAST],
    ];
    let machines = staying(waits);
    for (program, state) in &machines {
        for list in &lists {
            check_gate_run(program, list, state, u64::MAX)?;
            check_gate_run(program, list, state, 1 << 62)?;
            check_restart_before_end(program, list, state)?;
        }
    }
    Ok(machines.len() * lists.len() * 2)
}

/// With the resets of a run of all clocks but some, so that it can go on after the last.
fn check_restart_before_end(program: &Program, list: &[u64], state: &GateState) -> Check {
    let effective = list.partition_point(|&number| number < LAST - 1_000);
    check_restart(program, &list[..effective], state)
}

/// A million resets: one on each clock, and, of a machine that stays in row 12, as many
/// spread over 2^62 clocks.
fn check_many() -> Result<usize, String> {
    let every: Vec<u64> = (0..MANY).collect();
    let ends = [30, MANY - 1, MANY, MANY + 40];
    let machines = staying(&[1, 0, 2]);
    for (program, state) in &machines {
        for clocks in ends {
            check_gate_run(program, &every, state, clocks)?;
        }
    }
    let spread: Vec<u64> = (0..MANY).map(|i| i * ((1 << 62) / MANY)).collect();
    let (program, state) = &machines[machines.len() - 1];
    check_gate_run(program, &spread, state, 1 << 62)?;
    Ok(machines.len() * ends.len() + 1)
}
