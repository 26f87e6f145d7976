//! Prints crates/definition_cases/specs/Cases.antt: generated programs and gate
//! states with the reference emulator's results and refusals, for the prover to
//! compute the definitions on.

use harness::definition_cases::text;

fn main() {
    print!("{}", text());
}
