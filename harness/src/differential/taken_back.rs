//! What holds of the library's own answers to a traverse (CR 1, CR 11), whatever the
//! reference says: its pairs lead back, and undone files leave nothing.

use super::outcome::Outcome;
use super::traverses::{text, RULES};
use super::{proved, Check};
use crate::codes::JOURNAL_FULL;
use crate::words::machine_words;
use fm8502::library::{DONE, STOPPED};
use reference::generate::traverse::TraverseCase;
use std::collections::HashSet;

/// Of a traverse that was carried out.
pub fn check(case: &TraverseCase, left: &Outcome) -> Check {
    check_one(case, left)?;
    match (left.code, case.version) {
        (DONE, 1) => check_alone(case, left, |number| left.result[0] >> number & 1 == 0),
        (DONE, _) => check_alone(case, left, |_| true),
        _ => Ok(()),
    }
}

/// The part that makes no call more where there is one file.
pub fn check_one(case: &TraverseCase, left: &Outcome) -> Check {
    check_addresses(case, left)?;
    check_pairs(case, left)?;
    match (left.code, case.version) {
        (STOPPED, 2) => check_start(case, left),
        (JOURNAL_FULL, 2) => {
            check_start(case, left)?;
            check_every_pair(case, left)
        }
        (DONE, _) => Ok(()),
        _ => Err(fault("a code that the rule does not have", case, &[left])),
    }
}

fn fault(what: &str, case: &TraverseCase, outcomes: &[&Outcome]) -> String {
    let outcomes: String = outcomes.iter().map(|outcome| outcome.to_string()).collect();
    format!("{what}\n{}{outcomes}", text(case))
}

/// The places that are returned as filled.
fn filled(left: &Outcome) -> &[u32] {
    &left.journal[..2 * left.result[2] as usize]
}

/// No address stands twice, and none is below the bottom.
fn check_addresses(case: &TraverseCase, left: &Outcome) -> Check {
    let mut seen = HashSet::new();
    let mut addresses = filled(left).chunks_exact(2).map(|pair| pair[0]);
    if addresses.all(|address| address >= case.bottom && seen.insert(address)) {
        return Ok(());
    }
    Err(fault(
        "an address twice, or below the bottom",
        case,
        &[left],
    ))
}

/// Taking back the pairs ends with the memory that was lent; under rule 1, where they are
/// the last file's, with what the files before it leave. An undone file's change nothing by
/// that, as its words are there again.
fn check_pairs(case: &TraverseCase, left: &Outcome) -> Check {
    let mut memory = left.memory.clone();
    for pair in filled(left).chunks_exact(2) {
        memory[pair[0] as usize] = pair[1];
    }
    let files = case.files.len();
    let due = if case.version == 1 && files > 1 {
        let mut before = case.only(|number| number + 1 < files);
        before.places = case.places;
        proved::traverse(&before).memory
    } else {
        case.memory.clone()
    };
    if memory == due {
        return Ok(());
    }
    Err(fault("the pairs do not lead back", case, &[left]))
}

/// A full journal has no pair left.
fn check_every_pair(case: &TraverseCase, left: &Outcome) -> Check {
    if left.result[2] as usize == case.places / 2 {
        return Ok(());
    }
    Err(fault("full with a pair left", case, &[left]))
}

/// Nothing is left of a traverse that was taken back.
fn check_start(case: &TraverseCase, left: &Outcome) -> Check {
    let machine = machine_words(&case.start);
    if left.memory == case.memory && left.words == machine {
        return Ok(());
    }
    Err(fault("not as at the start", case, &[left]))
}

/// The files that finished leave, alone and under either rule, the same memory and
/// machine, and none of them is undone: with a pair for each word and instruction.
fn check_alone(case: &TraverseCase, left: &Outcome, finished: impl Fn(usize) -> bool) -> Check {
    let mut alone = case.only(finished);
    for rule in RULES {
        alone.version = rule;
        let outcome = proved::traverse(&alone);
        let same = outcome.memory == left.memory && outcome.words == left.words;
        if outcome.code != DONE || outcome.result[0] != 0 || !same {
            let what = "not as the files that finished leave it alone";
            return Err(fault(what, case, &[left, &outcome]));
        }
    }
    Ok(())
}
