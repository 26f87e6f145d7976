//! Demand 3 on generated programs.

mod common;

use common::check_agreement;
use reference::generate::program::{any_program, program, KINDS};
use reference::generate::state::gate_state;
use reference::rng::Rng;

#[test]
fn marks_are_equal_exactly_at_the_clock_total() {
    let mut rng = Rng::new(3);
    for _ in 0..60_000 {
        let program = any_program(&mut rng);
        let latches = gate_state(&mut rng, program.memory.len(), program.waits.len());
        check_agreement(&program, latches, 60);
    }
}

#[test]
fn every_kind_of_program_agrees() {
    let mut rng = Rng::new(4);
    for kind in KINDS {
        for _ in 0..5_000 {
            let program = program(&mut rng, kind);
            let latches = gate_state(&mut rng, program.memory.len(), program.waits.len());
            check_agreement(&program, latches, 30);
        }
    }
}
