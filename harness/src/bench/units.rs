//! The arithmetic unit around each adder. The proved one is called by the program
//! `crosscheck`, since the library has no call for the unit alone.

use super::measure::{best, time, Task};
use super::table::Table;
use crate::baseline::{c, gate_unit};
use crate::crosscheck::units::{input, operate, text, Adder, Case, Unit, HALVES, RIPPLE};
use reference::alu::AluResult;
use std::io::Write;
use std::process::{Command, Stdio};

const PROGRAM: &str = "target/bin/crosscheck";

/// The units around one adder.
struct Contest {
    name: &'static str,
    adder: Adder,
    /// The reference's, the Rust's and the C's: the table's order.
    others: [Unit; 3],
}

const CONTESTS: [Contest; 2] = [
    Contest {
        name: "ripple adder",
        adder: RIPPLE,
        others: [
            RIPPLE.unit,
            |operation, a, b, carry| flagged(gate_unit::gate_unit(operation.into(), a, b, carry)),
            |operation, a, b, carry| flagged(c::gate_unit(false, operation.into(), a, b, carry)),
        ],
    },
    Contest {
        name: "adder by halves",
        adder: HALVES,
        others: [
            HALVES.unit,
            |operation, a, b, carry| {
                flagged(gate_unit::gate_unit_by_halves(
                    operation.into(),
                    a,
                    b,
                    carry,
                ))
            },
            |operation, a, b, carry| flagged(c::gate_unit(true, operation.into(), a, b, carry)),
        ],
    },
];

/// The baselines leave N and Z to their caller, who has them from the word.
fn flagged((word, carry, overflow): gate_unit::Answer) -> AluResult {
    AluResult::of(word, carry, overflow)
}

pub fn units(rounds: u64, operations: u32) -> Table {
    Table {
        title: "Arithmetic unit".into(),
        unit: "operation",
        rows: CONTESTS
            .map(|contest| (contest.name.into(), times(&contest, rounds, operations)))
            .into(),
    }
}

fn times(contest: &Contest, rounds: u64, operations: u32) -> Vec<f64> {
    check(contest, operations);
    let count = u64::from(operations);
    // What starting the program costs is not the unit's.
    let start = best(rounds, &mut [Box::new(|| time(1, || program(contest, 0)))])[0];
    let mut tasks: Vec<Task> = vec![Box::new(|| time(count, || program(contest, operations)))];
    for unit in contest.others {
        tasks.push(Box::new(move || time(count, || operate(unit, operations))));
    }
    let mut times = best(rounds, &mut tasks);
    times[0] -= start / count as f64;
    times
}

/// What the program prints after so many operations.
fn program(contest: &Contest, operations: u32) -> String {
    let mut child = Command::new(PROGRAM)
        .stdin(Stdio::piped())
        .stdout(Stdio::piped())
        .spawn()
        .unwrap_or_else(|error| panic!("{PROGRAM}: {error}; `tests/build.sh crosscheck` builds it"));
    let case = Case::Sequence(contest.adder, operations);
    let mut stdin = child.stdin.take().expect("piped");
    stdin
        .write_all(&input(&[case]))
        .expect("read by the program");
    drop(stdin);
    let output = child.wait_with_output().expect("printed");
    String::from_utf8(output.stdout).expect("text")
}

/// All must come to the same end.
fn check(contest: &Contest, operations: u32) {
    let printed = program(contest, operations);
    for unit in contest.others {
        let due = format!("ran {}\n", text(&operate(unit, operations)));
        assert_eq!(printed, due, "{}", contest.name);
    }
}
