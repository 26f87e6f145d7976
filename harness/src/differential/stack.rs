//! The stack that a call with a journal takes: hosts make such calls from threads with little of it.

use super::Check;
use fm8502::library;
use std::thread::Builder;

/// What a call may take in all.
const STACK: usize = 256 * 1_024;

/// One file run, and a traverse of one file under each rule, from a thread with so much stack.
/// A call that takes more ends the program.
pub fn check() -> Check {
    let thread = Builder::new()
        .stack_size(STACK)
        .spawn(calls)
        .map_err(|why| format!("no thread of {STACK} bytes: {why}"))?;
    thread
        .join()
        .map_err(|_| "a call from a small stack panics".to_string())?
}

/// r1 moved to the word at r2: one instruction, one pair.
fn calls() -> Check {
    let machine = [0, 5, 1, 0, 0, 0, 0, 0, 0, 0, 0, 0];
    for version in 0..=2 {
        let (mut memory, mut journal) = ([0x141, 7], [9; 2]);
        let (mut words, mut result) = (machine, [9; 3]);
        let code = match version {
            0 => library::file_run(
                &mut memory,
                0,
                &mut journal,
                &mut words,
                1,
                &mut result[1..],
            ),
            _ => library::traverse(
                &mut memory,
                0,
                &mut journal,
                &[],
                &[0, 0, 0, 1],
                &mut words,
                version,
                &mut result,
            ),
        };
        if (code, memory, journal, &result[1..]) != (0, [0x141, 5], [1, 7], &[1, 1]) {
            return Err(format!(
                "version {version} from a small stack: {code} {memory:?} {journal:?} {result:?}"
            ));
        }
    }
    Ok(())
}
