//! Prints the proved emulator's speed as tables in Markdown.

use harness::arguments::{numbers, value};
use harness::bench::{
    agreement, calls, file_runs, images, journals, resets, runs, traverses, Sizes,
};

const HELP: &str = "\
Usage: bench [--rounds N] [--instructions N] [--clocks N] [--words N] [--calls N]
             [--resets N] [--starts N]

Checks that the proved emulator, the reference emulator, tuned Rust and C agree
on generated starts, then measures them in turns; the best of the rounds counts.
Without numbers: 100 rounds of 100000 instructions, 100000 clocks, 10000 calls, and
5 of 1000000 resets and of images of 16777216 words; 5000 starts.
";

const NAMES: [&str; 7] = [
    "--rounds",
    "--instructions",
    "--clocks",
    "--words",
    "--calls",
    "--resets",
    "--starts",
];

fn main() {
    let given = numbers(&NAMES, HELP);
    let sizes = Sizes {
        rounds: value(&given, "--rounds", 100),
        instructions: value(&given, "--instructions", 100_000) as u32,
        clocks: value(&given, "--clocks", 100_000),
        words: value(&given, "--words", 16_777_216) as usize,
        calls: value(&given, "--calls", 10_000),
        resets: value(&given, "--resets", 1_000_000).max(1),
    };
    let starts = value(&given, "--starts", 5_000);
    agreement::check(starts);
    println!("All four agree on {starts} generated starts and on the measured programs.");
    println!("Best of {} rounds in which they take turns.", sizes.rounds);
    let files = file_runs::file_runs(sizes);
    let journals = journals::journals(sizes);
    let tables = [
        runs::interpreter(sizes),
        files.files(),
        journals.files(),
        journals::calls(sizes),
        traverses::traverses(sizes),
        runs::gate_machine(sizes),
        resets::resets(sizes),
        images::images(sizes),
    ];
    println!("\n## Ratios");
    tables.iter().for_each(|table| table.print_ratios());
    files.print();
    journals.print();
    println!("\n## Times");
    tables.iter().for_each(|table| table.print_times());
    calls::calls(sizes);
}
