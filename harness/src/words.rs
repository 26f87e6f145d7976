//! The machine, the gate state, instructions and files as the words that the library takes.

use crate::case_words::latch_words;
use fm8502::library::{FILE_SIZE, MACHINE_SIZE, STATE_SIZE};
use reference::{File, Flags, GateState, Instruction, Machine, Operand};

/// r0 to r7, C, V, N, Z.
pub fn machine_words(machine: &Machine) -> [u32; MACHINE_SIZE] {
    let mut words = [0; MACHINE_SIZE];
    words[..8].copy_from_slice(&machine.registers);
    words[8..].copy_from_slice(&machine.flags.to_array().map(u32::from));
    words
}

/// The inverse of [`machine_words`].
pub fn machine_of(words: &[u32]) -> Machine {
    let mut registers = [0; 8];
    registers.copy_from_slice(&words[..8]);
    Machine {
        registers,
        flags: Flags::from_array([8, 9, 10, 11].map(|i| words[i] != 0)),
    }
}

/// The machine's words, row, latches, list position, begun, left.
pub fn state_words(state: &GateState) -> [u32; STATE_SIZE] {
    let mut words = [0; STATE_SIZE];
    words[..MACHINE_SIZE].copy_from_slice(&machine_words(&state.machine()));
    words[MACHINE_SIZE..].copy_from_slice(&latch_words(state));
    words
}

/// The inverse of [`state_words`].
pub fn state_of(words: &[u32]) -> GateState {
    let Machine { registers, flags } = machine_of(words);
    GateState {
        registers,
        flags,
        row: words[12] as u8,
        instruction: words[13],
        address: words[14],
        a: words[15],
        b: words[16],
        result: words[17],
        position: words[18],
        begun: words[19] != 0,
        left: words[20] as u16,
    }
}

/// Place, number of words, entry, instruction count, file by file.
pub fn file_words(files: &[File]) -> Vec<u32> {
    let words = |file: &File| [file.place, file.words, file.entry, file.count];
    files.iter().flat_map(words).collect()
}

/// The inverse of [`file_words`].
pub fn files_of(words: &[u32]) -> Vec<File> {
    let file = |words: &[u32]| File {
        place: words[0],
        words: words[1],
        entry: words[2],
        count: words[3],
    };
    words.chunks_exact(FILE_SIZE).map(file).collect()
}

/// Operation `operation` on the operands, with permits for C, V, N, Z.
pub fn compute(operation: u8, permit: [bool; 4], a: Operand, b: Operand) -> u32 {
    let instruction = Instruction {
        a,
        b,
        permit: Flags::from_array(permit),
        is_move: false,
        operation,
    };
    instruction.encode()
}
