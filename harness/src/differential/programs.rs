//! Programs: runs, file runs, and gate runs around the clock total.

use super::outcome::Outcome;
use super::{expected, gates, proved, restarts, run_case, same, traverses, Check};
use crate::codes::JOURNAL_FULL;
use fm8502::library::{HALTED, STOPPED};
use reference::generate::journal::{pairs_of_program, places, storing_program};
use reference::generate::looping::looping_program;
use reference::generate::program::{any_program, Program};
use reference::rng::Rng;
use std::fmt;

/// What the programs did, to show that they do different things.
#[derive(Default)]
pub struct Tally {
    pub instructions: u64,
    pub clocks: u64,
    pub outside: u64,
    pub halted: u64,
    pub journal_pairs: u64,
    /// File runs that were undone as their journal was full (CR 11).
    pub full: u64,
    /// Programs with a store below their bottom.
    pub below: u64,
    /// Resets that had an effect.
    pub resets: u64,
}

impl fmt::Display for Tally {
    fn fmt(&self, f: &mut fmt::Formatter<'_>) -> fmt::Result {
        write!(
            f,
            "{} instructions, {} clocks, {} outside, {} halted, {} journal pairs, ",
            self.instructions, self.clocks, self.outside, self.halted, self.journal_pairs
        )?;
        write!(f, "{} file runs with a full journal, ", self.full)?;
        write!(f, "{} stored below the bottom, ", self.below)?;
        write!(f, "{} resets", self.resets)
    }
}

pub fn check(rng: &mut Rng, tally: &mut Tally) -> Check {
    let program = any_program(rng);
    check_program(rng, &program, tally)
}

/// A program that stores on nearly every instruction.
pub fn check_storing(rng: &mut Rng, tally: &mut Tally) -> Check {
    let program = storing_program(rng);
    check_program(rng, &program, tally)
}

pub fn check_looping(rng: &mut Rng, tally: &mut Tally) -> Check {
    let program = looping_program(rng);
    check_program(rng, &program, tally)
}

pub fn check_program(rng: &mut Rng, program: &Program, tally: &mut Tally) -> Check {
    let run = check_run(program, tally)?;
    check_run_in_parts(rng, program, &run)?;
    check_file_run(rng, program, tally)?;
    let total = run.result[1];
    gates::check_around(rng, program, total)?;
    if run.code == HALTED {
        gates::check_halt(rng, program, total)?;
    }
    tally.resets += restarts::check(rng, program, total)?;
    Ok(())
}

/// A run of some instructions, and one of the rest that goes on from its machine, memory
/// and list position, against one run of all. After the first has stopped the second
/// stops at once; of no instructions it is finished, so that it has one to run.
fn check_run_in_parts(rng: &mut Rng, program: &Program, whole: &Outcome) -> Check {
    let Program {
        memory,
        bottom,
        waits,
        position,
        start,
        count,
    } = program;
    let first_count = rng.below((*count).max(1) as usize) as u32;
    let first = proved::run(memory, *bottom, waits, *position, start, first_count);
    let between = first.result[2] as u32;
    let rest = count - first_count;
    let mut last = proved::run_on(&first.memory, *bottom, waits, between, &first.words, rest);
    for place in [0, 1] {
        last.result[place] += first.result[place];
    }
    same("run in two parts", &last, whole, || {
        let far = format_args!("position {position} count {count}, first {first_count}");
        run_case(memory, *bottom, start, waits, far)
    })
}

/// Returns what is expected: the clock total is its second result.
pub fn check_run(program: &Program, tally: &mut Tally) -> Result<Outcome, String> {
    let expected = compare_run(program)?;
    tally.instructions += expected.result[0];
    tally.clocks += expected.result[1];
    tally.outside += u64::from(expected.code == STOPPED);
    tally.halted += u64::from(expected.code == HALTED);
    tally.below += u64::from(program.stores_below_bottom() > 0);
    Ok(expected)
}

/// Of any program, refused or not; returns what is expected.
pub fn compare_run(program: &Program) -> Result<Outcome, String> {
    let Program {
        memory,
        bottom,
        waits,
        position,
        start,
        count,
    } = program;
    let proved = proved::run(memory, *bottom, waits, *position, start, *count);
    let expected = expected::run(memory, *bottom, waits, *position, start, *count);
    same("run", &proved, &expected, || {
        let far = format_args!("position {position} count {count}");
        run_case(memory, *bottom, start, waits, far)
    })?;
    Ok(expected)
}

/// With a pair for each instruction, and with journals around the pairs that it needs.
fn check_file_run(rng: &mut Rng, program: &Program, tally: &mut Tally) -> Check {
    let pairs = pairs_of_program(program);
    let journals = [
        2 * program.count as usize,
        places(rng, pairs),
        places(rng, pairs),
    ];
    for places in journals {
        let expected = compare_file_run(program, places)?;
        tally.journal_pairs += expected.result[1];
        tally.full += u64::from(expected.code == JOURNAL_FULL);
    }
    Ok(())
}

/// With a journal of so many places, as a file run and as the traverse that it is (CR 1);
/// returns what is expected.
pub fn compare_file_run(program: &Program, places: usize) -> Result<Outcome, String> {
    let Program {
        memory,
        bottom,
        start,
        count,
        ..
    } = program;
    let proved = proved::file_run(memory, *bottom, places, start, *count);
    let expected = expected::file_run(memory, *bottom, places, start, *count);
    same("file run", &proved, &expected, || {
        let far = format_args!("count {count} journal {places} places");
        run_case(memory, *bottom, start, &[], far)
    })?;
    traverses::check_file_run(program, places, &proved)?;
    Ok(expected)
}
