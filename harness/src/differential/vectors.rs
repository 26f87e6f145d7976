//! The outside vectors through the library: what they say is expected, and not
//! what the reference makes of them.

use super::alone::{alone, machine, BOTTOMS, CLOCKS};
use super::lent::guard;
use super::outcome::Outcome;
use super::{proved, same, Check};
use crate::words::machine_words;
use reference::vectors::{vectors, Vector};
use reference::{Flags, GateState};

/// Returns how many vectors there are.
pub fn check() -> Result<usize, String> {
    let vectors = vectors();
    for vector in &vectors {
        for bottom in BOTTOMS {
            check_vector(vector, bottom)?;
        }
    }
    Ok(vectors.len())
}

/// In each kind of run.
fn check_vector(vector: &Vector, bottom: u32) -> Check {
    let (memory, start) = alone(vector.operation, vector.a, vector.b, vector.carry_in);
    let flags = [
        vector.carry,
        vector.overflow,
        vector.result >= 1 << 31,
        vector.result == 0,
    ];
    let end = machine(1, vector.a, vector.result, Flags::from_array(flags));
    let case = || {
        format!(
            "operation {} a {:08X} b {:08X} {:?} bottom {bottom}\n",
            vector.operation, vector.a, vector.b, start.flags
        )
    };

    let mut expected = Outcome::as_lent(&memory, &machine_words(&end), 3);
    expected.result = vec![1, CLOCKS, 0];
    same(
        "run",
        &proved::run(&memory, bottom, &[], 0, &start, 1),
        &expected,
        case,
    )?;

    expected.result = vec![1, 0];
    expected.journal = vec![guard(); 2];
    let proved = proved::file_run(&memory, bottom, 2, &start, 1);
    same("file run", &proved, &expected, case)?;

    let state = GateState::start(start);
    let mut proved = proved::gate_run(&memory, bottom, &[], &[], &state, CLOCKS);
    proved.words.truncate(expected.words.len());
    expected.result = vec![1];
    expected.journal.clear();
    same("gate run", &proved, &expected, case)
}
