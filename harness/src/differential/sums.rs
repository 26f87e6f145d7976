//! What the library's sums and halves mean (CR 13): the result and the flags that an
//! instruction leaves, read as integers, and not what the reference's unit gives.

use super::alone::{alone, BOTTOMS, CLOCKS};
use super::outcome::Outcome;
use super::{proved, Check};
use crate::words::machine_of;
use fm8502::library::DONE;
use reference::alu::AluResult;
use reference::generate::pair::pair;
use reference::meaning::{Use, ENDS};
use reference::rng::Rng;
use reference::GateState;

const RANDOM_PAIRS: usize = 1_000;

/// Returns how many uses of the unit there are.
pub fn check(rng: &mut Rng) -> Result<usize, String> {
    let ends = ENDS.into_iter().flat_map(|a| ENDS.map(|b| (a, b)));
    let random = (0..RANDOM_PAIRS).map(|_| pair(rng));
    let uses = ends.chain(random).flat_map(|(a, b)| Use::each(32, a, b));
    let mut checked = 0;
    for case in uses {
        check_use(&case)?;
        checked += 1;
    }
    Ok(checked)
}

/// In the interpreter and in the gate machine.
fn check_use(case: &Use) -> Check {
    let (memory, start) = alone(case.operation, case.a, case.b, case.carry);
    for bottom in BOTTOMS {
        let run = proved::run(&memory, bottom, &[], 0, &start, 1);
        check_meaning("run", case, bottom, &run)?;
        let state = GateState::start(start);
        let gate_run = proved::gate_run(&memory, bottom, &[], &[], &state, CLOCKS);
        check_meaning("gate run", case, bottom, &gate_run)?;
    }
    Ok(())
}

fn check_meaning(call: &str, case: &Use, bottom: u32, outcome: &Outcome) -> Check {
    let machine = machine_of(&outcome.words);
    let answer = AluResult {
        word: machine.registers[2],
        flags: machine.flags,
    };
    if outcome.code == DONE && !outcome.strayed && case.means(&answer) {
        return Ok(());
    }
    Err(format!(
        "{call}: {case}, bottom {bottom}: the result does not mean what it must\n{outcome}"
    ))
}
