//! The sledge that has drifted and is restarted by the reset line (CR 7).

use super::{gate_line, lines, run_line, INSTRUCTIONS};
use crate::text::hex_words;
use reference::{gate_run, run, Answer, GateResult, GateState, Machine, RunResult, Stop};
use std::ops::Range;

/// The clock on which reset is held; the program is stuck by then.
const RESET: u64 = 1_000;
/// Instructions of the first of two runs that follow on.
const FIRST_PART: u32 = 40;
const ACCUMULATORS: Range<usize> = 0x14..0x18;

/// What a gate run returns and leaves in memory.
type Left = (GateResult, Vec<u32>);

/// Until it is stuck, from the reset on with the interpreter, and all of it in one gate
/// run; then with a list that does not rise.
pub fn restarted(memory: &[u32], waits: &[u16], start: Machine) -> String {
    let drifted = run(&mut memory.to_vec(), 0, waits, 0, start, INSTRUCTIONS);
    assert_eq!(drifted.answer, Answer::Stopped(Stop::Outside));
    let gates = |resets: &[u64], clocks| -> Left {
        let (mut memory, state) = (memory.to_vec(), GateState::start(start));
        let result = gate_run(&mut memory, 0, waits, resets, state, clocks);
        (result, memory)
    };
    let reset = gates(&[RESET], RESET + 1);
    let before = lines([
        run_line("run", &drifted),
        gate_line(&gates(&[], RESET).0),
        format!("reset on clock {RESET}"),
        gate_line(&reset.0),
        format!("position {}", reset.0.state.position),
    ]);
    let (after, ran, left) = goes_on(&reset, waits);
    let clocks = RESET + 1 + ran.clocks;
    let whole = gates(&[RESET, clocks], clocks);
    assert_eq!((whole.0.state.machine(), &whole.1), (ran.machine, &left));
    let refused = gates(&[RESET, RESET], RESET).0.answer;
    let together = lines([
        gate_line(&whole.0),
        "memory and machine as the interpreter's: yes".into(),
        format!("resets {RESET} {RESET}: refused {}", refused.unwrap_err()),
    ]);
    before + &after + &together
}

/// The interpreter from what the reset left, in one run and in two; with the text its
/// result and the memory it leaves.
fn goes_on((reset, memory): &Left, waits: &[u16]) -> (String, RunResult, Vec<u32>) {
    let (start, position) = (reset.state.machine(), reset.state.position);
    let [mut left, mut in_parts] = [(); 2].map(|()| memory.clone());
    let whole = run(&mut left, 0, waits, position, start, INSTRUCTIONS);
    let first = run(&mut in_parts, 0, waits, position, start, FIRST_PART);
    let rest = INSTRUCTIONS - FIRST_PART;
    let second = run(&mut in_parts, 0, waits, first.position, first.machine, rest);
    assert_eq!((second.machine, &in_parts), (whole.machine, &left));
    let (ran, clocks) = (first.ran + second.ran, first.clocks + second.clocks);
    let text = lines([
        run_line("restarted", &whole),
        format!("position {}", whole.position),
        format!("accumulators{}", hex_words(&left[ACCUMULATORS])),
        format!(
            "in two parts: {ran} instructions, {clocks} clocks, position {}",
            second.position
        ),
    ]);
    (text, whole, left)
}
