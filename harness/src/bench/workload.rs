//! The programs that are measured.

use crate::words::compute;
use fm8502::library::{MACHINE_SIZE, STATE_SIZE};
use reference::refusal::MOST_WORDS;
use reference::rng::Rng;
use reference::Operand;
use Operand::{After, Direct, Indirect};

// Operations.
const MOVE: u8 = 0;
const ADD_CARRY: u8 = 2;
const ADD: u8 = 3;
const DECREMENT: u8 = 5;
const SUBTRACT: u8 = 7;
const HALVE: u8 = 10;
const XOR: u8 = 11;

// Conditions of a move.
const NOT_ZERO: u8 = 4;
const ALWAYS: u8 = 8;

// Permits for C, V, N, Z.
const NONE: [bool; 4] = [false; 4];
const ALL: [bool; 4] = [true; 4];
const CARRY: [bool; 4] = [true, false, false, false];
const ZERO: [bool; 4] = [false, false, false, true];
const NEGATIVE_ZERO: [bool; 4] = [false, false, true, true];

/// A start from which a program runs on for ever.
#[derive(Clone)]
pub struct Workload {
    pub name: String,
    pub machine: [u32; MACHINE_SIZE],
    pub memory: Vec<u32>,
    pub bottom: u32,
    pub waits: Vec<u16>,
    /// Of a gate run.
    pub resets: Vec<u64>,
}

impl Workload {
    fn new(name: &str, registers: [u32; 8], memory: Vec<u32>) -> Workload {
        let mut machine = [0; MACHINE_SIZE];
        machine[..8].copy_from_slice(&registers);
        Workload {
            name: name.into(),
            machine,
            memory,
            bottom: 0,
            waits: Vec::new(),
            resets: Vec::new(),
        }
    }

    /// Itself, without waits; then with the longest wait list, and with the shortest
    /// that has the same waits, 0 to 4, and comes round again and again.
    pub fn with_lists(self) -> [Workload; 3] {
        let [long, short] = [("waits", 65_536), ("5 waits", 5)].map(|(name, entries)| Workload {
            name: format!("{}, {name}", self.name),
            waits: (0..entries).map(|i: u32| (i % 5) as u16).collect(),
            ..self.clone()
        });
        [self, long, short]
    }

    /// The gate state between instructions, latches 0.
    pub fn state(&self) -> [u32; STATE_SIZE] {
        let mut state = [0; STATE_SIZE];
        state[..MACHINE_SIZE].copy_from_slice(&self.machine);
        state
    }
}

/// A move under a condition.
fn move_if(condition: u8, permit: [bool; 4], a: Operand, b: Operand) -> u32 {
    compute(condition, permit, a, b) | 0x8000
}

/// Six instructions on registers only.
pub fn register_loop() -> Workload {
    let mut memory = vec![0; 64];
    memory[..6].copy_from_slice(&[
        compute(ADD, ALL, Direct(3), Direct(2)),
        compute(XOR, NEGATIVE_ZERO, Direct(2), Direct(4)),
        compute(HALVE, CARRY, Direct(4), Direct(5)),
        compute(ADD_CARRY, ALL, Direct(5), Direct(3)),
        compute(DECREMENT, ZERO, Direct(1), Direct(1)),
        move_if(NOT_ZERO, NONE, Direct(7), Direct(0)),
    ]);
    let registers = [0, u32::MAX, 2, 0x1234_5677, 5, 9, 0, 0];
    Workload::new("register loop", registers, memory)
}

/// Of the stacking loop: its samples, and the address of the first one; the
/// accumulators follow them.
const SAMPLES: u32 = 4_096;
const FIRST: u32 = 1_024;

/// The stacking loop with all words below its accumulators fixed: the same work.
pub fn stacking_above_bottom() -> Workload {
    Workload {
        name: "stacking loop, bottom".into(),
        bottom: FIRST + SAMPLES,
        ..stacking_loop()
    }
}

/// The stacking loop in a gate run of so many clocks, reset about every 1,000 clocks, in
/// one row and another; it goes on from its first word with the registers as they are.
pub fn stacking_with_resets(clocks: u64) -> Workload {
    Workload {
        name: "stacking loop, resets".into(),
        resets: (1..=clocks / 1_000).map(|i| 1_000 * i - i % 31).collect(),
        ..stacking_loop()
    }
}

/// Halts after one instruction, with resets spread evenly over the clocks of a run.
pub fn halting_with_resets(resets: u64, clocks: u64) -> Workload {
    let halting = 1 << 14;
    let memory = vec![compute(ADD, ALL, Direct(3), Direct(2)), halting];
    let distance = clocks / resets;
    Workload {
        resets: (0..resets).map(|i| i * distance).collect(),
        ..Workload::new("halts after each", [0, 1, 2, 3, 0, 0, 0, 0], memory)
    }
}

/// The register loop, reset on each of its first clocks, so that none of it is done.
pub fn reset_on_every_clock(resets: u64) -> Workload {
    Workload {
        name: "on every clock".into(),
        resets: (0..resets).collect(),
        ..register_loop()
    }
}

/// Adds 4,096 samples at r1 to the accumulators at r2, and then begins again.
pub fn stacking_loop() -> Workload {
    let mut rng = Rng::new(77);
    let mut memory = vec![0; 16_384];
    for word in &mut memory[FIRST as usize..][..2 * SAMPLES as usize] {
        *word = rng.word() >> 8;
    }
    memory[..8].copy_from_slice(&[
        compute(ADD, NONE, After(1), After(2)),
        compute(DECREMENT, ZERO, Direct(3), Direct(3)),
        move_if(NOT_ZERO, NONE, Direct(4), Direct(0)),
        compute(MOVE, NONE, After(0), Direct(3)),
        SAMPLES,
        compute(SUBTRACT, NONE, Direct(3), Direct(2)),
        compute(SUBTRACT, NONE, Direct(3), Direct(1)),
        move_if(ALWAYS, NONE, Direct(4), Direct(0)),
    ]);
    let registers = [0, FIRST, FIRST + SAMPLES, SAMPLES, 0, 0, 0, 0];
    Workload::new("stacking loop", registers, memory)
}

/// Adds r1 to as many words of the longest memory, one every `step` words, and then begins
/// again.
pub fn storing_loop(addresses: u32, step: u32) -> Workload {
    const ABOVE_CODE: u32 = 16;
    let mut memory = vec![0; MOST_WORDS];
    let constants = [(3, addresses), (2, ABOVE_CODE)];
    let load = |(to, word)| [compute(MOVE, NONE, After(0), Direct(to)), word];
    memory[..4].copy_from_slice(&constants.map(load).concat());
    // From here on, r6, as long as r3 is not 0; r7 is 0.
    memory[4..9].copy_from_slice(&[
        compute(ADD, NONE, Direct(1), Indirect(2)),
        compute(ADD, NONE, Direct(5), Direct(2)),
        compute(DECREMENT, ZERO, Direct(3), Direct(3)),
        move_if(NOT_ZERO, NONE, Direct(6), Direct(0)),
        move_if(ALWAYS, NONE, Direct(7), Direct(0)),
    ]);
    let registers = [0, 7, 0, 0, 0, step, 4, 0];
    let name = match step {
        1 => format!("{addresses} addresses side by side"),
        _ => format!("{addresses} addresses, one every {step} words"),
    };
    Workload::new(&name, registers, memory)
}

/// The stacking loop without an end: it comes outside after 50,988 instructions.
pub fn stacking_outside() -> Workload {
    let endless = stacking_loop();
    let mut memory = vec![0; 21_096];
    memory[..3].copy_from_slice(&endless.memory[..3]);
    let registers = [0, 100, 4_100, 60_000, 0, 0, 0, 0];
    Workload::new("stacking loop", registers, memory)
}

/// A generated body of 1,000 instructions in a loop: r1 to r3 hold data, r4 to
/// r7 are pointers that are set again after the body.
pub fn generated() -> Workload {
    const BODY: usize = 1_000;
    let base = |pointer: u8| 16_384 + 8_192 * u32::from(pointer - 4);
    let mut rng = Rng::new(99);
    let mut memory: Vec<u32> = (0..BODY).map(|_| generated_word(&mut rng)).collect();
    for pointer in 4..8 {
        memory.extend([
            compute(MOVE, NONE, After(0), Direct(pointer)),
            base(pointer),
        ]);
    }
    // The constant goes to r0, whose step up then makes it 0.
    memory.extend([compute(MOVE, NONE, After(0), Direct(0)), u32::MAX]);
    memory.resize(8_192, 0);
    memory.extend((8_192..65_536).map(|_| rng.word()));
    let registers = [0, 0, 0, 0, base(4), base(5), base(6), base(7)];
    Workload::new("generated program", registers, memory)
}

fn generated_word(rng: &mut Rng) -> u32 {
    let a = generated_operand(rng, 7);
    let b = generated_operand(rng, 3);
    let is_move = rng.one_in(4);
    let permit = [(); 4].map(|()| rng.flag());
    let word = compute(rng.below(16) as u8, permit, a, b);
    word | u32::from(is_move) << 15
}

/// A register from r1 to the highest, or a pointer in any mode.
fn generated_operand(rng: &mut Rng, highest: usize) -> Operand {
    if rng.flag() {
        return Direct(rng.between(1, highest) as u8);
    }
    let mode = rng.between(1, 3);
    Operand::decode((mode << 3 | rng.between(4, 7)) as u32)
}

/// Moves only: the arithmetic unit is not used, so that the clocks alone count.
pub fn moves_loop() -> Workload {
    let mut memory = vec![0; 64];
    memory[..4].copy_from_slice(&[
        move_if(ALWAYS, ALL, Direct(3), Direct(2)),
        move_if(ALWAYS, ALL, Indirect(5), Direct(4)),
        move_if(ALWAYS, NONE, Direct(2), Indirect(5)),
        move_if(ALWAYS, NONE, Direct(7), Direct(0)),
    ]);
    Workload::new("moves only", [0, 1, 2, 3, 0, 32, 0, 0], memory)
}
