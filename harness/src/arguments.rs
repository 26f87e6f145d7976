//! Options of the form `--name NUMBER` on the command line.

use std::process::exit;

/// The options given, each of which must be one of `names`; prints `help` and
/// ends the program if they are not of this form.
pub fn numbers(names: &[&str], help: &str) -> Vec<(String, u64)> {
    let mut given = Vec::new();
    let mut arguments = std::env::args().skip(1);
    while let Some(name) = arguments.next() {
        let value = arguments.next().and_then(|text| text.parse().ok());
        match value {
            Some(value) if names.contains(&name.as_str()) => given.push((name, value)),
            _ => {
                eprint!("{help}");
                exit(2);
            }
        }
    }
    given
}

/// The value of an option, the last one given, or the default.
pub fn value(given: &[(String, u64)], name: &str, default: u64) -> u64 {
    let last = given.iter().rev().find(|(known, _)| known == name);
    last.map_or(default, |&(_, value)| value)
}
