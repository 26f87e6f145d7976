//! What the program must print for a case, by the reference emulator.

use super::Case;
use crate::text::hex_words;
use reference::{gate_clock, GateState, Refusal};

pub fn output(cases: &[Case]) -> String {
    cases.iter().map(line).collect()
}

/// The clocks one at a time.
fn line(case: &Case) -> String {
    let mut memory = case.memory.clone();
    let mut state = case.state;
    let (mut answer, mut finished) = (Ok(()), 0);
    for _ in 0..case.clocks {
        let clock = gate_clock(&mut memory, case.bottom, &case.waits, &mut state);
        answer = clock.map(|count| finished += count);
    }
    let (answer, state) = (answer_text(answer), state_text(&state));
    format!("lent {answer} {finished} {state}{}\n", hex_words(&memory))
}

fn answer_text(answer: Result<(), Refusal>) -> String {
    answer.map_or_else(|refusal| format!("refused {refusal}"), |()| "ran".into())
}

fn state_text(s: &GateState) -> String {
    let latches = hex_words(&[s.instruction, s.address, s.a, s.b, s.result]);
    format!(
        "{}{} {}{latches} {} {} {}",
        s.flags.digits(),
        hex_words(&s.registers),
        s.row,
        s.position,
        u8::from(s.begun),
        s.left
    )
}
