//! The longest memory, and one word more; the same for its bottom.

use super::{expected, proved, Check};
use fm8502::library::{self, FILE_SIZE, MACHINE_SIZE, STATE_SIZE};
use reference::image::image_size;
use reference::refusal::MOST_WORDS;
use reference::Machine;

const TOO_MANY_WORDS: u32 = 2;
const BOTTOM_TOO_HIGH: u32 = 21;

pub fn check() -> Check {
    check_longest()?;
    check_refused(MOST_WORDS, MOST_WORDS as u32 + 1, BOTTOM_TOO_HIGH)?;
    check_refused(MOST_WORDS, u32::MAX, BOTTOM_TOO_HIGH)?;
    check_refused(MOST_WORDS + 1, 0, TOO_MANY_WORDS)?;
    check_refused(MOST_WORDS + 1, u32::MAX, TOO_MANY_WORDS)?;
    check_too_long_image()
}

/// As [`super::same`], without printing 16,777,216 words.
fn agree(call: &str, equal: bool) -> Check {
    if equal {
        return Ok(());
    }
    Err(format!(
        "{call} differs on a memory of {MOST_WORDS} words\n"
    ))
}

/// A program that reads and writes the last word and then leaves the memory.
fn check_longest() -> Check {
    let mut memory = vec![0; MOST_WORDS];
    memory[0] = 0x0001_0129; // inc (r1),(r1)
    memory[1] = 0x0001_0339; // inc (r1)+,(r1)+
    memory[2] = memory[0];
    memory[MOST_WORDS - 1] = 41;
    let mut machine = Machine::default();
    let last = MOST_WORDS as u32 - 1;
    machine.registers[1] = last;
    for bottom in [0, last, last + 1] {
        let ran = proved::run(&memory, bottom, &[], 0, &machine, 9);
        let equal = ran == expected::run(&memory, bottom, &[], 0, &machine, 9);
        agree(&format!("run with bottom {bottom}"), equal)?;
    }
    check_longest_image(memory, &machine)
}

fn check_longest_image(mut memory: Vec<u32>, machine: &Machine) -> Check {
    let room = image_size(MOST_WORDS);
    let written = proved::image_write(&memory, machine, 2, room);
    let equal = written == expected::image_write(&memory, machine, 2, room);
    agree("image write", equal)?;
    memory.fill(7);
    let loaded = proved::image_read(&written.output, &memory);
    let equal = loaded == expected::image_read(&written.output, &memory);
    agree("image read", equal && loaded.memory == written.memory)
}

/// The four runs and the traverse, with every later reason to refuse them as well, but for
/// 21 where the bottom is 0.
fn check_refused(words: usize, bottom: u32, due: u32) -> Check {
    let memory = &mut vec![0; words][..];
    let waits = &[0; 65_537][..];
    let position = waits.len() as u32;
    let (mut machine, mut state) = ([0; MACHINE_SIZE], [13; STATE_SIZE]);
    let (mut three, mut two, mut one) = ([7; 3], [7; 2], [7; 1]);
    let (machine_lent, state_lent) = (&mut machine, &mut state);
    let files = &[u32::MAX; 65 * FILE_SIZE];
    let traverse = library::traverse(
        memory,
        bottom,
        &mut [],
        &[],
        files,
        machine_lent,
        0,
        &mut three,
    );
    let codes = [
        traverse,
        library::run(memory, bottom, waits, position, machine_lent, 9, &mut three),
        library::file_run(memory, bottom, &mut [], machine_lent, 65_537, &mut two),
        library::gate_run(memory, bottom, waits, &[1, 1], state_lent, 9, &mut one),
        library::clock(memory, bottom, waits, state_lent, &mut one),
    ];
    let unchanged = memory.iter().all(|&word| word == 0)
        && machine == [0; MACHINE_SIZE]
        && state == [13; STATE_SIZE]
        && (three, two, one) == ([7; 3], [7; 2], [7; 1]);
    if codes == [due; 5] && unchanged {
        return Ok(());
    }
    Err(format!(
        "a memory of {words} words, bottom {bottom}: codes {codes:?}, unchanged: {unchanged}\n"
    ))
}

fn check_too_long_image() -> Check {
    let memory = vec![0; MOST_WORDS + 1];
    let mut result = [7; 1];
    let code = library::image_write(&memory, &[0; MACHINE_SIZE], 3, &mut [], &mut result);
    if (code, result) == (TOO_MANY_WORDS, [7; 1]) {
        return Ok(());
    }
    Err(format!(
        "an image of a memory one word too long: code {code}, result {result:?}\n"
    ))
}
