//! The outcomes that the reference emulator gives for the same calls.

use super::lent::guard;
use super::outcome::Outcome;
use crate::codes;
use crate::words::{machine_words, state_words};
use fm8502::library::MACHINE_SIZE;
use reference::generate::traverse::TraverseCase;
use reference::{image, GateState, Machine};

pub fn run(
    memory: &[u32],
    bottom: u32,
    waits: &[u16],
    position: u32,
    machine: &Machine,
    count: u32,
) -> Outcome {
    let mut outcome = Outcome::as_lent(memory, &machine_words(machine), 3);
    let lent = &mut outcome.memory;
    let result = reference::run(lent, bottom, waits, position, *machine, count);
    outcome.code = codes::of_run(result.answer);
    if outcome.carried_out() {
        outcome.words = machine_words(&result.machine).to_vec();
        let position = u64::from(result.position);
        outcome.result = vec![u64::from(result.ran), result.clocks, position];
    }
    outcome
}

pub fn file_run(
    memory: &[u32],
    bottom: u32,
    places: usize,
    machine: &Machine,
    count: u32,
) -> Outcome {
    let mut outcome = Outcome::as_lent(memory, &machine_words(machine), 2);
    outcome.journal = vec![guard(); places];
    let journal = &mut outcome.journal;
    let result = reference::file_run(&mut outcome.memory, bottom, journal, *machine, count);
    outcome.code = codes::of_file_run(result.answer);
    if outcome.carried_out() {
        outcome.words = machine_words(&result.machine).to_vec();
        outcome.result = vec![u64::from(result.ran), u64::from(result.pairs)];
    }
    outcome
}

pub fn gate_run(
    memory: &[u32],
    bottom: u32,
    waits: &[u16],
    resets: &[u64],
    state: &GateState,
    clocks: u64,
) -> Outcome {
    let mut outcome = Outcome::as_lent(memory, &state_words(state), 1);
    let lent = &mut outcome.memory;
    let result = reference::gate_run(lent, bottom, waits, resets, *state, clocks);
    outcome.code = codes::of_call(result.answer);
    if outcome.carried_out() {
        outcome.words = state_words(&result.state).to_vec();
        outcome.result = vec![result.finished];
    }
    outcome
}

/// Advances `state` as well.
pub fn clock(memory: &[u32], bottom: u32, waits: &[u16], state: &mut GateState) -> Outcome {
    let mut outcome = Outcome::as_lent(memory, &[], 1);
    match reference::gate_clock(&mut outcome.memory, bottom, waits, state) {
        Ok(finished) => outcome.result = vec![finished],
        Err(refusal) => outcome.code = codes::refused(refusal),
    }
    outcome.words = state_words(state).to_vec();
    outcome
}

pub fn traverse(case: &TraverseCase) -> Outcome {
    let mut outcome = Outcome::as_lent(&case.memory, &machine_words(&case.start), 3);
    outcome.journal = vec![guard(); case.places];
    let result = reference::traverse(
        &mut outcome.memory,
        case.bottom,
        &mut outcome.journal,
        &case.words,
        &case.files,
        case.start,
        case.version,
    );
    outcome.code = codes::of_traverse(result.answer);
    if outcome.carried_out() {
        outcome.words = machine_words(&result.machine).to_vec();
        let undone = codes::undone(result.answer);
        outcome.result = vec![undone, u64::from(result.ran), u64::from(result.pairs)];
    }
    outcome
}

pub fn image_read(bytes: &[u8], memory: &[u32]) -> Outcome {
    let mut outcome = Outcome::as_lent(memory, &[guard(); MACHINE_SIZE], 2);
    let result = image::read(bytes, &mut outcome.memory);
    outcome.code = codes::of_call(result.answer);
    if outcome.carried_out() {
        outcome.words = machine_words(&result.machine).to_vec();
        outcome.result = vec![u64::from(result.words), u64::from(result.version)];
    }
    outcome
}

pub fn image_write(memory: &[u32], machine: &Machine, version: u32, room: usize) -> Outcome {
    let mut outcome = Outcome::as_lent(memory, &machine_words(machine), 1);
    outcome.output = vec![guard(); room];
    match image::write(machine, memory, version, &mut outcome.output) {
        Ok(size) => outcome.result = vec![size as u64],
        Err(refusal) => outcome.code = codes::refused(refusal),
    }
    outcome
}
