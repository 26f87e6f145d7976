//! What several test files share.
#![allow(dead_code)] // Each test file uses only part of it.

use reference::generate::program::Program;
use reference::{gate_clock, gate_run, run, Answer, Flags, GateState, Machine, RunResult, Stop};

/// Bit 14 and bits 20-31, of which an instruction has none.
pub const HALTING: [u32; 13] = [
    1 << 14,
    1 << 20,
    1 << 21,
    1 << 22,
    1 << 23,
    1 << 24,
    1 << 25,
    1 << 26,
    1 << 27,
    1 << 28,
    1 << 29,
    1 << 30,
    1 << 31,
];

pub const OUTSIDE: Answer = Answer::Stopped(Stop::Outside);
pub const NO_INSTRUCTION: Answer = Answer::Stopped(Stop::NoInstruction);

/// Flags from digits in the order C, V, N, Z.
pub fn flags(digits: &str) -> Flags {
    let digits: Vec<bool> = digits.bytes().map(|digit| digit == b'1').collect();
    Flags::from_array(digits.try_into().expect("four digits"))
}

/// A machine with the given registers and flags, the other registers 0.
pub fn machine(registers: &[(usize, u32)], digits: &str) -> Machine {
    let mut machine = Machine {
        registers: [0; 8],
        flags: flags(digits),
    };
    for &(number, word) in registers {
        machine.registers[number] = word;
    }
    machine
}

/// What a reset clock makes of a state (CR 7): r0 and the row are 0 and no access has
/// begun; everything else stays.
pub fn cut(state: &GateState) -> GateState {
    let [_, r1, r2, r3, r4, r5, r6, r7] = state.registers;
    GateState {
        registers: [0, r1, r2, r3, r4, r5, r6, r7],
        row: 0,
        begun: false,
        left: 0,
        ..*state
    }
}

/// A run of the first n instructions and the memory it leaves.
struct Prefix {
    result: RunResult,
    memory: Vec<u32>,
}

impl Prefix {
    /// Whether all five parts of the two marks agree.
    fn mark_equals(&self, finished: u64, state: &GateState, memory: &[u32]) -> bool {
        u64::from(self.result.ran) == finished
            && state.between_instructions()
            && self.result.machine == state.machine()
            && self.memory == memory
    }
}

fn prefix(program: &Program, count: u32) -> Prefix {
    let mut memory = program.memory.clone();
    let result = run(
        &mut memory,
        program.bottom,
        &program.waits,
        program.position,
        program.start,
        count,
    );
    Prefix { result, memory }
}

/// Demand 3 for every n up to the program's count and every k up to `extra`
/// clocks past the last total. Where fewer than n ran, the marks are equal as for
/// those that ran. `latches` gives the latches of the start.
pub fn check_agreement(program: &Program, latches: GateState, extra: u64) {
    let prefixes: Vec<Prefix> = (0..=program.count).map(|n| prefix(program, n)).collect();
    let last = prefixes[prefixes.len() - 1].result;
    let mut memory = program.memory.clone();
    let mut state = program.gate_start(latches);
    let mut finished = 0;
    for k in 0..=last.clocks + extra {
        for prefix in &prefixes {
            let equal = prefix.mark_equals(finished, &state, &memory);
            let due = k == prefix.result.clocks;
            assert_eq!(equal, due, "clock {k} of {program:X?}");
        }
        let may_go_on = last.answer == Answer::Finished;
        assert!(may_go_on || finished <= last.ran.into(), "{program:X?}");
        finished += gate_clock(&mut memory, program.bottom, &program.waits, &mut state).unwrap();
    }
    if let Answer::Stopped(stop) = last.answer {
        check_never_more(program, latches, &prefixes[prefixes.len() - 1], stop);
    }
}

/// After a run that stopped the gate machine is stuck, so that all clocks can be
/// tried. Halted, it has all that the interpreter left and the word that halts.
fn check_never_more(program: &Program, latches: GateState, last: &Prefix, stop: Stop) {
    let mut memory = program.memory.clone();
    let state = program.gate_start(latches);
    let result = gate_run(
        &mut memory,
        program.bottom,
        &program.waits,
        &[],
        state,
        u64::MAX,
    );
    assert_eq!(result.answer, Ok(()));
    assert_eq!(result.finished, u64::from(last.result.ran), "{program:X?}");
    assert_eq!(memory, last.memory, "{program:X?}");
    let state = result.state;
    if stop == Stop::Outside {
        assert!(matches!(state.row, 1 | 4 | 6), "{program:X?}");
        return;
    }
    let r0 = state.registers[0];
    assert_eq!((state.row, state.address), (12, r0), "{program:X?}");
    assert_eq!(state.machine(), last.result.machine, "{program:X?}");
    assert_eq!(state.instruction, memory[r0 as usize], "{program:X?}");
}
