//! Gate runs with reset lists (CR 7): against the reference as a whole, clock by clock
//! and in parts; and, of the library's own answers, that after the last reset the gate
//! machine goes on as the interpreter does that is started there.

use super::gates::{check_gate_run, check_parts, gate_case, start, three_parts};
use super::outcome::Outcome;
use super::{expected, proved, same, Check};
use crate::words::{machine_words, state_of, state_words};
use fm8502::library::DONE;
use reference::generate::program::Program;
use reference::generate::resets::resets;
use reference::rng::Rng;
use reference::GateState;

/// The most clocks that are looked at one by one, as each is compared with a run up to it.
const MOST_SINGLE: u64 = 60;

/// The most clocks in which resets are made; a program that loops has many more.
const MOST_CLOCKS: u64 = 2_000;

/// A generated list for a run that ends around the clock total. Returns how many resets
/// had an effect.
pub fn check(rng: &mut Rng, program: &Program, total: u64) -> Result<u64, String> {
    let state = start(rng, program);
    let clocks = total.min(MOST_CLOCKS) + rng.between(0, 60) as u64;
    let resets = resets(rng, program, state, clocks);
    check_list(rng, program, &resets, &state, clocks)
}

/// In every way. Returns how many resets had an effect.
pub fn check_list(
    rng: &mut Rng,
    program: &Program,
    resets: &[u64],
    state: &GateState,
    clocks: u64,
) -> Result<u64, String> {
    check_gate_run(program, resets, state, clocks)?;
    check_each_clock(program, resets, state, clocks)?;
    check_parts(program, resets, state, three_parts(rng, clocks))?;
    let effective = resets.partition_point(|&number| number < clocks);
    check_restart(program, &resets[..effective], state)?;
    Ok(effective as u64)
}

/// Runs of one clock each, on which reset is held or not, against the reference's one run
/// of so many clocks with the list.
pub fn check_each_clock(
    program: &Program,
    resets: &[u64],
    state: &GateState,
    clocks: u64,
) -> Check {
    let Program {
        memory,
        bottom,
        waits,
        ..
    } = program;
    let mut proved = Outcome::as_lent(memory, &state_words(state), 1);
    let mut finished = 0;
    for number in 0..clocks.min(MOST_SINGLE) {
        let held: &[u64] = if resets.contains(&number) { &[0] } else { &[] };
        proved = proved::gate_run_on(&proved.memory, *bottom, waits, held, &proved.words, 1);
        if proved.carried_out() {
            finished += proved.result[0];
            proved.result = vec![finished];
        }
        let expected = expected::gate_run(memory, *bottom, waits, resets, state, number + 1);
        same("gate run of one clock", &proved, &expected, || {
            let case = gate_case(program, resets, state, number + 1);
            format!("{case}at the last of these clocks, each a run\n")
        })?;
    }
    Ok(())
}

/// The last reset of the list leaves a start between instructions, and from there the
/// interpreter's mark equals the gate machine's exactly at the clock total.
pub fn check_restart(program: &Program, resets: &[u64], state: &GateState) -> Check {
    let Some(last) = resets.last() else {
        return Ok(());
    };
    let restart = Restart {
        program,
        resets,
        state,
        begin: last + 1,
    };
    let left = restart.gate_run(0);
    restart.check_start(&left)?;
    restart.check_marks(&left)
}

/// A gate run up to its last reset, and the clock after it.
struct Restart<'a> {
    program: &'a Program,
    resets: &'a [u64],
    state: &'a GateState,
    begin: u64,
}

impl Restart<'_> {
    /// So many clocks after the last reset. The number of the first clock past the run is
    /// in the list too, and has no effect.
    fn gate_run(&self, after: u64) -> Outcome {
        let clocks = self.begin.saturating_add(after);
        let resets = [self.resets, &[clocks]].concat();
        let Program {
            memory,
            bottom,
            waits,
            ..
        } = self.program;
        proved::gate_run(memory, *bottom, waits, &resets, self.state, clocks)
    }

    fn fault(&self, what: &str, after: u64, outcomes: &[&Outcome]) -> String {
        let clocks = self.begin.saturating_add(after);
        let case = gate_case(self.program, self.resets, self.state, clocks);
        let outcomes: String = outcomes.iter().map(|outcome| outcome.to_string()).collect();
        format!("{what}\n{case}{outcomes}")
    }

    /// Row 0, r0 0 and no access begun.
    fn check_start(&self, left: &Outcome) -> Check {
        let state = state_of(&left.words);
        let access = (state.begun, state.left);
        if left.code == DONE && state.row == 0 && state.registers[0] == 0 && access == (false, 0) {
            return Ok(());
        }
        Err(self.fault("a reset does not leave a start", 0, &[left]))
    }

    /// The interpreter from there, and gate runs around its clock total.
    fn check_marks(&self, left: &Outcome) -> Check {
        let state = state_of(&left.words);
        let Program {
            bottom,
            waits,
            count,
            ..
        } = self.program;
        let machine = machine_words(&state.machine());
        let memory = &left.memory;
        let ran = proved::run_on(memory, *bottom, waits, state.position, &machine, *count);
        let total = ran.result[1];
        for after in [total.saturating_sub(1), total, total + 1] {
            let gates = self.gate_run(after);
            if mark_equals(&ran, left.result[0], &gates) != (after == total) {
                let what = "marks after the last reset are equal elsewhere than at the total";
                return Err(self.fault(what, after, &[&ran, &gates]));
            }
            let position = u64::from(state_of(&gates.words).position);
            if after == total && position != ran.result[2] {
                let what = "list positions differ at the total";
                return Err(self.fault(what, after, &[&ran, &gates]));
            }
        }
        self.check_never_more(left, &ran)
    }

    /// Where the interpreter stopped, no clocks finish more.
    fn check_never_more(&self, left: &Outcome, ran: &Outcome) -> Check {
        if ran.code == DONE {
            return Ok(());
        }
        let gates = self.gate_run(u64::MAX);
        if gates.code == DONE && gates.result[0] == left.result[0] + ran.result[0] {
            return Ok(());
        }
        let what = "the gate machine finishes more than the interpreter";
        Err(self.fault(what, u64::MAX, &[ran, &gates]))
    }
}

/// All five parts; `before` instructions had finished before the last reset, which the
/// gate run returns too.
fn mark_equals(ran: &Outcome, before: u64, gates: &Outcome) -> bool {
    let state = state_of(&gates.words);
    gates.code == DONE
        && gates.result[0] == before + ran.result[0]
        && state.row == 0
        && machine_words(&state.machine())[..] == ran.words
        && gates.memory == ran.memory
}
