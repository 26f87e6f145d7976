//! Prints the input of the test program `crosscheck`, or what it must print: for the
//! cases that are kept with it, or for the sums of CR 8, which are made when needed.

use harness::crosscheck::cases::cases;
use harness::crosscheck::units::{adder_cases, kept_cases};
use harness::crosscheck::{input, output, units};
use std::io::{stdout, Write};
use std::process::exit;

fn main() -> std::io::Result<()> {
    let text = match std::env::args().nth(1).as_deref() {
        Some("stdin") => [input::input(&cases()), units::input(&kept_cases())].concat(),
        Some("stdout") => (output::output(&cases()) + &units::output(&kept_cases())).into_bytes(),
        Some("sums-stdin") => units::input(&adder_cases()),
        Some("sums-stdout") => units::output(&adder_cases()).into_bytes(),
        _ => {
            eprintln!("Usage: crosscheck_cases stdin | stdout | sums-stdin | sums-stdout");
            exit(2)
        }
    };
    stdout().write_all(&text)
}
