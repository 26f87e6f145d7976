//! The reference emulator behind the library's calls on words.

use crate::codes;
use crate::words::{files_of, machine_of, machine_words, state_of, state_words};
use fm8502::library::DONE;
use reference::image;

pub fn run(
    memory: &mut [u32],
    bottom: u32,
    waits: &[u16],
    position: u32,
    words: &mut [u32],
    count: u32,
    result: &mut [u64],
) -> u32 {
    let ran = reference::run(memory, bottom, waits, position, machine_of(words), count);
    words.copy_from_slice(&machine_words(&ran.machine));
    result.copy_from_slice(&[u64::from(ran.ran), ran.clocks, u64::from(ran.position)]);
    codes::of_run(ran.answer)
}

pub fn file_run(
    memory: &mut [u32],
    bottom: u32,
    journal: &mut [u32],
    words: &mut [u32],
    count: u32,
    result: &mut [u64],
) -> u32 {
    let ran = reference::file_run(memory, bottom, journal, machine_of(words), count);
    words.copy_from_slice(&machine_words(&ran.machine));
    result.copy_from_slice(&[u64::from(ran.ran), u64::from(ran.pairs)]);
    codes::of_file_run(ran.answer)
}

#[allow(clippy::too_many_arguments)] // As many as the library has.
pub fn traverse(
    memory: &mut [u32],
    bottom: u32,
    journal: &mut [u32],
    laid: &[u32],
    files: &[u32],
    words: &mut [u32],
    version: u32,
    result: &mut [u64],
) -> u32 {
    let (files, start) = (files_of(files), machine_of(words));
    let ran = reference::traverse(memory, bottom, journal, laid, &files, start, version);
    words.copy_from_slice(&machine_words(&ran.machine));
    let undone = codes::undone(ran.answer);
    result.copy_from_slice(&[undone, u64::from(ran.ran), u64::from(ran.pairs)]);
    codes::of_traverse(ran.answer)
}

pub fn gate_run(
    memory: &mut [u32],
    bottom: u32,
    waits: &[u16],
    resets: &[u64],
    words: &mut [u32],
    clocks: u64,
    result: &mut [u64],
) -> u32 {
    let ran = reference::gate_run(memory, bottom, waits, resets, state_of(words), clocks);
    words.copy_from_slice(&state_words(&ran.state));
    result[0] = ran.finished;
    codes::of_call(ran.answer)
}

pub fn image_read(bytes: &[u8], memory: &mut [u32], words: &mut [u32], result: &mut [u64]) -> u32 {
    let loaded = image::read(bytes, memory);
    words.copy_from_slice(&machine_words(&loaded.machine));
    result.copy_from_slice(&[u64::from(loaded.words), u64::from(loaded.version)]);
    codes::of_call(loaded.answer)
}

pub fn image_write(
    memory: &[u32],
    words: &[u32],
    version: u32,
    out: &mut [u8],
    result: &mut [u64],
) -> u32 {
    match image::write(&machine_of(words), memory, version, out) {
        Ok(size) => {
            result[0] = size as u64;
            DONE
        }
        Err(refusal) => codes::refused(refusal),
    }
}
