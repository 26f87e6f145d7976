//! Prints the speed of the arithmetic unit around each adder as tables in Markdown.

use harness::arguments::{numbers, value};
use harness::bench::units::units;

const HELP: &str = "\
Usage: unit_bench [--rounds N] [--operations N]

Checks that the proved unit, the reference emulator's, tuned Rust and C come to the
same end after the operations, with either adder, then measures them in turns; the
best of the rounds counts. Without numbers: 20 rounds of 1000000 operations (at most
16777216). Run it from the repository's top folder, after `tests/build.sh crosscheck`.
";

/// The program's limit.
const MOST_OPERATIONS: u64 = 16_777_216;

fn main() {
    let given = numbers(&["--rounds", "--operations"], HELP);
    let rounds = value(&given, "--rounds", 20);
    let operations = value(&given, "--operations", 1_000_000).clamp(1, MOST_OPERATIONS) as u32;
    let table = units(rounds, operations);
    println!("Best of {rounds} rounds of {operations} operations, in which all four take turns.");
    println!("\n## Ratios");
    table.print_ratios();
    println!("\n## Times");
    table.print_times();
}
