//! The programs of the cases.

use reference::generate::halting::BIT_NUMBERS;
use reference::generate::position::position;
use reference::generate::program::{any_program, Program};
use reference::rng::Rng;
use reference::{run, Machine};

/// A small program, so that the prover's time goes into instructions and not into long lists.
pub fn small(rng: &mut Rng) -> Program {
    loop {
        let mut p = any_program(rng);
        p.count = p.count.min(8);
        if p.memory.len() <= 24 && p.waits.iter().all(|&w| w < 12) {
            p.waits.truncate(16);
            p.position = position(rng, p.waits.len());
            return p;
        }
    }
}

/// The wait of the read that halts.
pub const HALT_WAIT: u16 = 2;

/// For each of the thirteen bits a store to memory, and then a word that halts.
pub fn halting_programs() -> Vec<Program> {
    let program = |bit| {
        let mut start = Machine::default();
        start.registers[1..3].copy_from_slice(&[bit, 2]);
        Program {
            // move r1,(r2), and inc r1,r1 with the bit.
            memory: vec![0x0000_0141, 0x0001_0021 | 1 << bit, 7],
            bottom: 0,
            // The store has three accesses.
            waits: vec![1, 0, 3, HALT_WAIT],
            position: 0,
            start,
            count: 3,
        }
    };
    BIT_NUMBERS.map(program).to_vec()
}

/// The word that the bottom programs store to first, and the length of their memories.
pub const STORED: u32 = 3;
pub const LENGTH: u32 = 5;

/// The wait of the first store of a bottom program.
pub const STORE_WAIT: u16 = 2;

/// For each bottom around the store an addition to that word, with B in each of the three
/// modes that have an address, and one to the next word; then the run is outside.
pub fn bottom_programs() -> Vec<Program> {
    let program = |word, r2, bottom| {
        let mut start = Machine::default();
        start.registers[1..4].copy_from_slice(&[u32::MAX, r2, STORED + 1]);
        Program {
            // The word, add r1,(r3) and add r1,(r1), all with all flags.
            memory: vec![word, 0x0003_3D61, 0x0003_3D21, 1, 0],
            bottom,
            // From the second on, so that the list comes round within the run.
            waits: vec![3, 1, 0, STORE_WAIT, 0],
            position: 1,
            start,
            count: 3,
        }
    };
    // add r1,(r2), add r1,-(r2) and add r1,(r2)+, with r2 so that all store to one word.
    let modes = [
        (0x0003_3D41, STORED),
        (0x0003_3E41, STORED + 1),
        (0x0003_3F41, STORED),
    ];
    let bottoms = [0, STORED, STORED + 1, LENGTH];
    let programs = modes.map(|(word, r2)| bottoms.map(|bottom| program(word, r2, bottom)));
    programs.concat()
}

/// Stores of the storing program.
pub const STORES: usize = 4;

/// Two stores to words 6 and 5, one more to 6, one to 7; then a store to a missing word.
pub fn storing_program() -> Program {
    let mut start = Machine::default();
    start.registers[1..7].copy_from_slice(&[71, 6, 5, 74, 7, 8]);
    Program {
        // move r1,(r2), move r1,(r3), move r4,(r2), move r4,(r5), move r4,(r6).
        memory: vec![0x0141, 0x0161, 0x0144, 0x01A4, 0x01C4, 15, 16, 17],
        bottom: 0,
        waits: Vec::new(),
        position: 0,
        start,
        count: 5,
    }
}

/// Of so many instructions.
pub fn clock_total(p: &Program, count: u32) -> u64 {
    let memory = &mut p.memory.clone();
    run(memory, p.bottom, &p.waits, p.position, p.start, count).clocks
}
