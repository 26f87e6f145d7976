//! One case of each kind, as the constructor's arguments.

use crate::case_words::{ending_number, file_number, flag_number, latch_words};
use reference::generate::program::Program;
use reference::{file_run, gate_run, run, Answer, GateState, Refusal};

/// A run, and two file runs of the same program: with a pair for each instruction, and with
/// so many pairs.
pub fn run_case(p: &Program, room: usize) -> String {
    let mut memory = p.memory.clone();
    let r = run(
        &mut memory,
        p.bottom,
        &p.waits,
        p.position,
        p.start,
        p.count,
    );
    format!(
        "run_case {} {} {} {} {} {} {} {} {} {} {} {} {} {} {} {} {}",
        numbers(&p.memory),
        numbers(&p.start.registers),
        flag_number(p.start.flags),
        p.bottom,
        numbers(&p.waits),
        p.position,
        p.count,
        numbers(&memory),
        numbers(&r.machine.registers),
        flag_number(r.machine.flags),
        r.ran,
        r.clocks,
        ending_number(r.answer),
        r.position,
        file_case(p, p.count as usize),
        room,
        file_case(p, room),
    )
}

/// How a file run with so many pairs ended, how many instructions ran, and its journal.
fn file_case(p: &Program, room: usize) -> String {
    let mut journal = vec![0; 2 * room];
    let memory = &mut p.memory.clone();
    let f = file_run(memory, p.bottom, &mut journal, p.start, p.count);
    journal.truncate(2 * f.pairs as usize);
    let answer = file_number(f.answer);
    format!("{answer} {} {}", f.ran, numbers(&journal))
}

pub fn gate_case(p: &Program, resets: &[u64], state: &GateState, clocks: u64) -> String {
    let mut memory = p.memory.clone();
    let g = gate_run(&mut memory, p.bottom, &p.waits, resets, *state, clocks);
    assert_eq!(g.answer, Ok(()), "a good case");
    format!(
        "gate_case {} {} {} {} {} {} {} {} {} {} {}",
        numbers(&p.memory),
        p.bottom,
        numbers(&p.waits),
        numbers(resets),
        numbers(&state.registers),
        latches(state),
        clocks,
        numbers(&memory),
        numbers(&g.state.registers),
        latches(&g.state),
        g.finished,
    )
}

/// Whether a gate run is refused: its number, 0 for none.
pub fn verdict_case(
    memory: &[u32],
    bottom: u32,
    waits: &[u16],
    resets: &[u64],
    state: &GateState,
) -> String {
    let answer = gate_run(&mut memory.to_vec(), bottom, waits, resets, *state, 0).answer;
    format!(
        "verdict_case {} {} {} {} {} {}",
        numbers(memory),
        bottom,
        numbers(waits),
        numbers(resets),
        latches(state),
        answer.map_or_else(Refusal::number, |()| 0),
    )
}

/// Whether a run of the interpreter is refused: its number, 0 for none.
pub fn start_case(memory: &[u32], bottom: u32, waits: &[u16], position: u32) -> String {
    let start = Default::default();
    let number = match run(&mut memory.to_vec(), bottom, waits, position, start, 0).answer {
        Answer::Refused(refusal) => refusal.number(),
        _ => 0,
    };
    format!(
        "start_case {} {} {} {} {}",
        numbers(memory),
        bottom,
        numbers(waits),
        position,
        number,
    )
}

/// Flags, row, latches, list position and access in the order of the state.
fn latches(state: &GateState) -> String {
    let mut list = vec![flag_number(state.flags)];
    list.extend(latch_words(state));
    numbers(&list)
}

fn numbers<T: Copy + Into<u64>>(list: &[T]) -> String {
    let items: String = list
        .iter()
        .map(|&number| format!("{} ∷ ", number.into()))
        .collect();
    format!("({items}[])")
}
