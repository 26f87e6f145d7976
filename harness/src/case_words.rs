//! Flags, gate states and endings of runs as the generated cases have them.

use reference::{Answer, FileAnswer, Flags, GateState, Stop};

/// C, V, N, Z as the bits of a number, C the highest.
pub fn flag_number(flags: Flags) -> u32 {
    let bits = flags.to_array().map(u32::from);
    bits.iter().fold(0, |number, bit| 2 * number + bit)
}

/// How a run that was not refused ended: 0 finished, 1 outside, 2 no instruction.
pub fn ending_number(answer: Answer) -> u32 {
    match answer {
        Answer::Finished => 0,
        Answer::Stopped(Stop::Outside) => 1,
        Answer::Stopped(Stop::NoInstruction) => 2,
        Answer::Refused(refusal) => panic!("a run is refused with {refusal}"),
    }
}

/// How a file run that was not refused ended: 0 finished, 1 undone, 2 journal full.
pub fn file_number(answer: FileAnswer) -> u32 {
    match answer {
        FileAnswer::Finished => 0,
        FileAnswer::Undone => 1,
        FileAnswer::JournalFull => 2,
        FileAnswer::Refused(refusal) => panic!("a file run is refused with {refusal}"),
    }
}

/// What a gate state has besides registers and flags: row, latches, list
/// position, begun, left.
pub fn latch_words(state: &GateState) -> [u32; 9] {
    [
        u32::from(state.row),
        state.instruction,
        state.address,
        state.a,
        state.b,
        state.result,
        state.position,
        u32::from(state.begun),
        u32::from(state.left),
    ]
}
