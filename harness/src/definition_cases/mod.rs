//! The cases of crates/definition_cases, as a file of lists for the prover.

mod gates;
mod programs;
mod restarts;
mod shapes;
mod verdicts;

use programs::{bottom_programs, halting_programs, small, storing_program, STORES};
use reference::generate::journal::pairs_of_program;
use reference::rng::Rng;
use shapes::run_case;
use std::fmt::Write;

const SEED: u64 = 8502;
const RUNS: usize = 300;

/// What stands before the cases.
const HEAD: &str = "-- Cases of both engines, of document 01, \"Machine and instruction word\", \"Clocks\", \"File run and journal\" and \"Why a call is turned
-- down\", and of document 02, CR 3, CR 5, CR 6, CR 7 and CR 11, made by harness/definition_cases from a seed with the reference emulator's
-- results: do not edit.
use Rattle.std.specs.Prelude.{List, [], ◌∷◌}
use Rattle.definition_cases.specs.Shape.{RunCase, GateCase, VerdictCase, StartCase, run_case, gate_case, verdict_case, start_case}
";

/// The whole file.
pub fn text() -> String {
    let mut rng = Rng::new(SEED);
    let mut out = String::from(HEAD);
    list(&mut out, "run_cases", "RunCase", &runs(&mut rng));
    list(&mut out, "gate_cases", "GateCase", &gates::cases(&mut rng));
    let verdicts = verdicts::of_gate_runs(&mut rng);
    list(&mut out, "verdict_cases", "VerdictCase", &verdicts);
    let starts = verdicts::of_runs(&mut rng);
    list(&mut out, "start_cases", "StartCase", &starts);
    out
}

/// File runs with just enough pairs, with one too few, and with half of them.
fn runs(rng: &mut Rng) -> Vec<String> {
    let mut programs: Vec<_> = (0..RUNS).map(|_| small(rng)).collect();
    programs.extend(halting_programs());
    programs.extend(bottom_programs());
    let case = |(number, p)| {
        let enough = pairs_of_program(p);
        let rooms = [enough, enough.saturating_sub(1), enough / 2];
        run_case(p, rooms[number % 3])
    };
    let mut cases: Vec<_> = programs.iter().enumerate().map(case).collect();
    cases.extend((0..=STORES).map(|room| run_case(&storing_program(), room)));
    cases
}

fn list(out: &mut String, name: &str, of: &str, cases: &[String]) {
    write!(out, "\nabbrev pub {name} : List {of}\n{name} =\n").unwrap();
    for (i, case) in cases.iter().enumerate() {
        let mark = if i == 0 { "" } else { "∷ " };
        writeln!(out, "    {mark}{case}").unwrap();
    }
    out.push_str("    ∷ []\n");
}
