//! Gate runs of generated programs and from generated states.

use super::outcome::Outcome;
use super::{expected, proved, restarts, run_case, same, Check};
use crate::text::{first_numbers, hex_words};
use crate::words::state_words;
use reference::generate::bottom::refused_bottom;
use reference::generate::program::{any_program, Program};
use reference::generate::resets::{refused_resets, resets};
use reference::generate::state::{gate_state, refused_gate_state};
use reference::rng::Rng;
use reference::GateState;

/// A start between instructions: any latches, at the program's list position.
pub fn start(rng: &mut Rng, program: &Program) -> GateState {
    program.gate_start(gate_state(rng, program.memory.len(), 0))
}

/// Gate runs that end just before, at and just after the clock total, one that
/// goes on for some clocks, and the same one in parts.
pub fn check_around(rng: &mut Rng, program: &Program, total: u64) -> Check {
    let state = start(rng, program);
    let longest = total + rng.between(2, 60) as u64;
    for clocks in [total.saturating_sub(1), total, total + 1, longest] {
        check_gate_run(program, &[], &state, clocks)?;
    }
    check_parts(program, &[], &state, three_parts(rng, longest))
}

/// Any three numbers of clocks that make so many.
pub fn three_parts(rng: &mut Rng, clocks: u64) -> [u64; 3] {
    let first = rng.between(0, clocks as usize) as u64;
    let second = rng.between(0, (clocks - first) as usize) as u64;
    [first, second, clocks - first - second]
}

/// Gate runs that end while the word that halts is read, and after it, and one of
/// all the clocks there are. Past the clock total that word takes a clock for its
/// address and, with its wait, some for its read.
pub fn check_halt(rng: &mut Rng, program: &Program, total: u64) -> Check {
    let Program {
        memory,
        bottom,
        waits,
        ..
    } = program;
    let state = start(rng, program);
    let between = reference::gate_run(&mut memory.clone(), *bottom, waits, &[], state, total);
    let wait = waits.get(between.state.position as usize).copied();
    let halt = total + 2 + u64::from(wait.unwrap_or(0));
    for clocks in [halt - 1, halt, halt + 1, u64::MAX] {
        check_gate_run(program, &[], &state, clocks)?;
    }
    Ok(())
}

pub fn check_gate_run(program: &Program, resets: &[u64], state: &GateState, clocks: u64) -> Check {
    let Program {
        memory,
        bottom,
        waits,
        ..
    } = program;
    let proved = proved::gate_run(memory, *bottom, waits, resets, state, clocks);
    let expected = expected::gate_run(memory, *bottom, waits, resets, state, clocks);
    same("gate run", &proved, &expected, || {
        gate_case(program, resets, state, clocks)
    })
}

/// Runs that follow on, each with the resets of its own clocks, counted from its own
/// beginning, against one run of all their clocks.
pub fn check_parts(program: &Program, resets: &[u64], state: &GateState, parts: [u64; 3]) -> Check {
    let Program {
        memory,
        bottom,
        waits,
        ..
    } = program;
    let clocks = parts.iter().sum();
    let expected = expected::gate_run(memory, *bottom, waits, resets, state, clocks);
    let mut proved = Outcome::as_lent(memory, &state_words(state), 1);
    let (mut begin, mut finished) = (0, 0);
    for part in parts {
        let list = counted_from(begin, resets);
        proved = proved::gate_run_on(&proved.memory, *bottom, waits, &list, &proved.words, part);
        begin += part;
        finished += proved.result[0];
    }
    proved.result = vec![finished];
    same("gate run in parts", &proved, &expected, || {
        let case = gate_case(program, resets, state, clocks);
        format!("{case}parts {parts:?}\n")
    })
}

/// The resets from a clock on, as a run has them that begins there.
fn counted_from(begin: u64, resets: &[u64]) -> Vec<u64> {
    let later = resets.iter().filter(|&&number| number >= begin);
    later.map(|number| number - begin).collect()
}

/// A state in any row, some of them refused, and some for the bottom or the reset list:
/// clock by clock, then as one run, and then with resets.
pub fn check_state(rng: &mut Rng) -> Check {
    let mut program = any_program(rng);
    let (words, entries) = (program.memory.len(), program.waits.len());
    let state = if rng.one_in(5) {
        refused_gate_state(rng, words, entries)
    } else {
        gate_state(rng, words, entries)
    };
    if rng.one_in(20) {
        program.bottom = refused_bottom(rng, words);
    }
    check_clocks(&program, state, rng.between(1, 40))?;
    let clocks = rng.between(0, 200) as u64;
    check_gate_run(&program, &[], &state, clocks)?;
    let refused = refused_resets(rng, clocks);
    check_gate_run(&program, &refused, &state, clocks)?;
    let resets = resets(rng, &program, state, clocks);
    let (memory, bottom, waits) = (&program.memory, program.bottom, &program.waits);
    if expected::gate_run(memory, bottom, waits, &resets, &state, 0).carried_out() {
        return restarts::check_list(rng, &program, &resets, &state, clocks).map(drop);
    }
    check_gate_run(&program, &resets, &state, clocks)?;
    restarts::check_each_clock(&program, &resets, &state, clocks)
}

/// Each clock advances the state and the memory that the clock before it left.
pub fn check_clocks(program: &Program, start: GateState, clocks: usize) -> Check {
    let (bottom, waits) = (program.bottom, &program.waits);
    let mut state = start;
    let mut proved = Outcome::as_lent(&program.memory, &state_words(&start), 1);
    for number in 1..=clocks {
        let expected = expected::clock(&proved.memory, bottom, waits, &mut state);
        proved = proved::clock(&proved.memory, bottom, waits, &proved.words);
        same("clock", &proved, &expected, || {
            let case = gate_case(program, &[], &start, number as u64);
            format!("{case}at the last of these clocks, each a call\n")
        })?;
    }
    Ok(())
}

pub fn gate_case(program: &Program, resets: &[u64], state: &GateState, clocks: u64) -> String {
    let words = hex_words(&state_words(state));
    let resets = first_numbers(resets);
    let far = format!("state{words}\nresets{resets}\nclocks {clocks}");
    let Program {
        memory,
        bottom,
        waits,
        ..
    } = program;
    run_case(memory, *bottom, &state.machine(), waits, far)
}
