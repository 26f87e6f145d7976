//! Document 02, CR 7: after the last reset everything is as if a machine had been started
//! there; and runs with resets follow on.

mod common;

use common::check_agreement;
use reference::generate::program::{any_program, Program};
use reference::generate::resets::resets;
use reference::generate::state::gate_state;
use reference::rng::Rng;
use reference::{gate_run, run, GateResult, GateState};

/// A lent state, and resets of which the last is on clock `last`.
struct Case {
    program: Program,
    lent: GateState,
    resets: Vec<u64>,
    last: u64,
}

fn any_case(rng: &mut Rng) -> Case {
    let program = any_program(rng);
    let lent = gate_state(rng, program.memory.len(), program.waits.len());
    let last = rng.between(0, 90) as u64;
    let mut resets = resets(rng, &program, lent, last);
    resets.retain(|&number| number < last);
    resets.push(last);
    Case {
        program,
        lent,
        resets,
        last,
    }
}

impl Case {
    /// So many clocks, with a number that has no effect in the list.
    fn run(&self, clocks: u64) -> (GateResult, Vec<u32>) {
        let mut memory = self.program.memory.clone();
        let Program { bottom, waits, .. } = &self.program;
        let resets = [&self.resets[..], &[clocks]].concat();
        let result = gate_run(&mut memory, *bottom, waits, &resets, self.lent, clocks);
        (result, memory)
    }

    /// What the last reset leaves: a start of the interpreter, and the gate state.
    fn restarted(&self) -> (Program, GateResult) {
        let (result, memory) = self.run(self.last + 1);
        let restarted = Program {
            memory,
            position: result.state.position,
            start: result.state.machine(),
            ..self.program.clone()
        };
        (restarted, result)
    }
}

/// The state is a start of demand 3, and its marks are those of the interpreter.
#[test]
fn marks_are_equal_exactly_at_the_clock_total_after_it() {
    let mut rng = Rng::new(75);
    for _ in 0..20_000 {
        let (restarted, left) = any_case(&mut rng).restarted();
        assert_eq!(left.state, restarted.gate_start(left.state));
        assert_eq!(restarted.start.registers[0], 0);
        check_agreement(&restarted, left.state, 30);
    }
}

/// In the same run, which returns what finished before the reset too.
#[test]
fn the_run_goes_on_as_the_interpreter_does() {
    let mut rng = Rng::new(76);
    let (mut before, mut after) = (0, 0);
    for _ in 0..20_000 {
        let case = any_case(&mut rng);
        let (start, left) = case.restarted();
        let mut due = start.memory.clone();
        let (bottom, waits, position) = (start.bottom, &start.waits, start.position);
        let ran = run(&mut due, bottom, waits, position, start.start, start.count);
        let (whole, memory) = case.run(case.last + 1 + ran.clocks);
        assert_eq!(whole.finished, left.finished + u64::from(ran.ran));
        assert_eq!(whole.state.machine(), ran.machine);
        assert_eq!((whole.state.row, whole.state.position), (0, ran.position));
        assert_eq!(memory, due);
        before += left.finished;
        after += u64::from(ran.ran);
    }
    assert!(before > 10_000 && after > 50_000, "{before} {after}");
}

/// Each run counts its own clocks from 0; what is past its end is left in its list.
#[test]
fn runs_in_parts_equal_one_run() {
    let mut rng = Rng::new(77);
    for _ in 0..20_000 {
        let case = any_case(&mut rng);
        let clocks = case.last + rng.between(1, 60) as u64;
        let (whole, whole_memory) = case.run(clocks);

        let mut memory = case.program.memory.clone();
        let mut parts = GateResult {
            answer: Ok(()),
            state: case.lent,
            finished: 0,
        };
        let mut begin = 0;
        while begin < clocks {
            let part = 1 + rng.below((clocks - begin) as usize) as u64;
            let list = counted_from(begin, &case.resets);
            let Program { bottom, waits, .. } = &case.program;
            let result = gate_run(&mut memory, *bottom, waits, &list, parts.state, part);
            parts.state = result.state;
            parts.finished += result.finished;
            begin += part;
        }
        assert_eq!(parts, whole);
        assert_eq!(memory, whole_memory);
    }
}

/// The numbers from a clock on, as a run has them that begins there.
fn counted_from(begin: u64, resets: &[u64]) -> Vec<u64> {
    let later = resets.iter().filter(|&&number| number >= begin);
    later.map(|number| number - begin).collect()
}
