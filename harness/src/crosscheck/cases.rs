//! The cases, small enough for the program's fixed buffers.

use super::Case;
use reference::generate::bottom::refused_bottom;
use reference::generate::halting::BIT_NUMBERS;
use reference::generate::program::{any_program, Program};
use reference::generate::state::{gate_state, refused_gate_state};
use reference::rng::Rng;
use reference::GateState;

const SEED: u64 = 850_248;
const STATES: usize = 160;

/// The program's limit.
const MOST_LIST: usize = 64;

pub fn cases() -> Vec<Case> {
    let mut rng = Rng::new(SEED);
    let mut cases: Vec<Case> = (0..STATES).map(|i| state_case(&mut rng, i)).collect();
    cases.extend(list_ends());
    cases.extend(halts());
    cases.extend(stores_around_bottoms());
    cases.extend(lent_stores());
    cases
}

/// Waits are shortened, as few instructions would end otherwise.
fn small_program(rng: &mut Rng) -> Program {
    let mut program = any_program(rng);
    assert!(program.memory.len() <= MOST_LIST);
    program.waits.truncate(MOST_LIST);
    for wait in &mut program.waits {
        *wait %= 1_000;
    }
    program
}

/// Every fourth is refused for its state, every fortieth for its memory, and every
/// twentieth for its bottom.
fn state_case(rng: &mut Rng, number: usize) -> Case {
    let Program {
        mut memory,
        mut bottom,
        waits,
        ..
    } = small_program(rng);
    let state = if number % 4 == 3 {
        refused_gate_state(rng, memory.len(), waits.len())
    } else {
        gate_state(rng, memory.len(), waits.len())
    };
    if number % 20 == 17 {
        bottom = refused_bottom(rng, memory.len());
    }
    if number % 40 == 38 {
        memory.clear();
    }
    Case {
        memory,
        bottom,
        waits,
        state,
        clocks: rng.between(0, 400) as u64,
    }
}

/// Lists of 0, 1, 2, 3 and 5 entries: from the last one, which comes round, and from the
/// list's end and past it, which is refused.
fn list_ends() -> Vec<Case> {
    let mut cases = Vec::new();
    for entries in [0, 1, 2, 3, 5] {
        let end = u32::max(entries, 1);
        for position in [end - 1, end, end + 1, 65_536] {
            cases.push(Case {
                // inc (r1),(r1), and a jump to it: six accesses a turn.
                memory: vec![0x0001_0129, 0x0000_0018, u32::MAX, 0],
                bottom: 0,
                waits: (1..=entries as u16).rev().collect(),
                state: GateState {
                    registers: [0, 3, 0, 0, 0, 0, 0, 0],
                    position,
                    ..GateState::default()
                },
                clocks: 300,
            });
        }
    }
    cases
}

/// For each of the thirteen bits, an instruction and then a word that halts: the clock
/// before its read is complete, that clock, and some later.
fn halts() -> Vec<Case> {
    let case = |bit: u32, clocks| Case {
        // inc r1,r1, and the same with the bit.
        memory: vec![0x0001_0021, 0x0001_0021 | 1 << bit],
        bottom: 0,
        waits: vec![1, 2, 5],
        state: GateState::default(),
        clocks,
    };
    // With their waits the instruction takes 10 clocks, and the word's address and read 4.
    let ends = [13, 14, 30];
    let cases = BIT_NUMBERS.map(|bit| ends.map(|clocks| case(bit, clocks)));
    cases.into_iter().flatten().collect()
}

/// inc (r1),(r1) with each bottom that the memory can have, and one more: the clock
/// before the store is complete, that clock, and some later.
fn stores_around_bottoms() -> Vec<Case> {
    let memory = vec![0x0001_0129, 0x0001_0129, 7, 8];
    let case = |bottom, clocks| Case {
        memory: memory.clone(),
        bottom,
        waits: vec![1, 0, 2, 3],
        state: GateState {
            registers: [0, 2, 0, 0, 0, 0, 0, 0],
            ..GateState::default()
        },
        clocks,
    };
    // Rows 0 to 9 but 8, and the waits.
    let store = 9 + 1 + 2 + 3;
    let bottoms = 0..=memory.len() as u32 + 1;
    let ends = [store - 1, store, store + 20];
    bottoms
        .flat_map(|bottom| ends.map(|clocks| case(bottom, clocks)))
        .collect()
}

/// One clock of a state lent in row 9, on both sides of the bottom and past the memory.
fn lent_stores() -> Vec<Case> {
    let case = |bottom, address| Case {
        memory: vec![5, 6, 7],
        bottom,
        waits: Vec::new(),
        state: GateState {
            row: 9,
            address,
            result: 99,
            ..GateState::default()
        },
        clocks: 1,
    };
    let addresses = [0, 1, 2, 3, u32::MAX];
    [0, 1, 2, 3, 4, u32::MAX]
        .iter()
        .flat_map(|&bottom| addresses.map(|address| case(bottom, address)))
        .collect()
}
