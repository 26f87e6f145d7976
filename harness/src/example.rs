//! What the examples of the bindings print, by the reference emulator.

pub mod line;
mod restart;

use crate::text::hex_words;
use line::FileWords;
use reference::image::{self, ReadResult};
use reference::{file_run, gate_run, run};
use reference::{Answer, FileAnswer, FileResult, GateResult, GateState, Machine, RunResult, Stop};
use std::ops::Range;

/// Enough for all traces; the last ones wait at the program's end.
const INSTRUCTIONS: u32 = 90;
const TRACE_COUNT: usize = 0x0F;
const ACCUMULATORS: Range<usize> = 0x10..0x18;

/// In the memory of the image with a loader: the loader, and its accumulators.
const LOADER: Range<usize> = 0..4;
const LOADED_ACCUMULATORS: Range<usize> = 4..8;

/// The images of the examples.
pub struct Images {
    pub stacking: Vec<u8>,
    pub outside: Vec<u8>,
    pub halted: Vec<u8>,
    pub loader: Vec<u8>,
    pub restart: Vec<u8>,
    pub line: Vec<u8>,
}

/// The text for the images, the wait list, and the files of the last image.
pub fn text(images: &Images, waits: &[u16], files: &[FileWords]) -> String {
    let (memory, machine) = load(&images.stacking);
    let mut text = format!("stacking.image: {} words\n", memory.len());
    text += &stacked(memory, waits, machine);
    let (memory, machine) = load(&images.outside);
    text += &format!("outside.image: {} words\n", memory.len());
    text += &rolled_back(memory, machine);
    let (memory, machine) = load(&images.halted);
    text += &format!("halted.image: {} words\n", memory.len());
    text += &comes_to_halt(memory, waits, machine);
    let (memory, machine) = load(&images.loader);
    text += &format!("loader.image: {} words\n", memory.len());
    text += &holds_a_loader(&memory, waits, machine);
    let (memory, machine) = load(&images.restart);
    text += &format!("restart.image: {} words\n", memory.len());
    text += &restart::restarted(&memory, waits, machine);
    text + &line::traversed(&images.line, files)
}

fn load(bytes: &[u8]) -> (Vec<u32>, Machine) {
    let (memory, loaded) = load_with_version(bytes);
    (memory, loaded.machine)
}

fn load_with_version(bytes: &[u8]) -> (Vec<u32>, ReadResult) {
    let mut memory = vec![0; 4_096];
    let loaded = image::read(bytes, &mut memory);
    assert_eq!(loaded.answer, Ok(()), "a good image");
    memory.truncate(loaded.words as usize);
    (memory, loaded)
}

fn stacked(mut memory: Vec<u32>, waits: &[u16], start: Machine) -> String {
    let mut copy = memory.clone();
    let result = run(&mut memory, 0, waits, 0, start, INSTRUCTIONS);
    assert_eq!(result.answer, Answer::Finished);
    let state = GateState::start(start);
    let gates = gate_run(&mut copy, 0, waits, &[], state, result.clocks);
    assert_eq!(copy, memory, "both engines leave the same memory");
    lines([
        run_line("run", &result),
        format!("flags {}", result.machine.flags.digits()),
        format!("registers{}", hex_words(&result.machine.registers)),
        format!("traces {}", memory[TRACE_COUNT]),
        format!("accumulators{}", hex_words(&memory[ACCUMULATORS])),
        gate_line(&gates),
    ])
}

fn run_line(name: &str, result: &RunResult) -> String {
    let RunResult { ran, clocks, .. } = result;
    let ending = match result.answer {
        Answer::Finished => "finished",
        Answer::Stopped(Stop::Outside) => "outside",
        Answer::Stopped(Stop::NoInstruction) => "no instruction",
        Answer::Refused(refusal) => panic!("refused with {refusal}"),
    };
    format!("{name}: {ending}, {ran} instructions, {clocks} clocks")
}

fn file_line(name: &str, result: &FileResult) -> String {
    let FileResult { ran, pairs, .. } = result;
    let ending = match result.answer {
        FileAnswer::Finished => "finished",
        FileAnswer::Undone => "undone",
        FileAnswer::JournalFull => "journal full",
        FileAnswer::Refused(refusal) => panic!("refused with {refusal}"),
    };
    format!("{name}: {ending}, {ran} instructions, {pairs} pairs")
}

fn gate_line(result: &GateResult) -> String {
    let GateResult {
        finished, state, ..
    } = result;
    format!("gate machine: {finished} instructions, row {}", state.row)
}

fn lines<const N: usize>(lines: [String; N]) -> String {
    lines.map(|line| line + "\n").concat()
}

fn rolled_back(mut memory: Vec<u32>, start: Machine) -> String {
    let former = memory.clone();
    let mut journal = vec![0; 2 * INSTRUCTIONS as usize];
    let result = file_run(&mut memory, 0, &mut journal, start, INSTRUCTIONS);
    assert_eq!(result.answer, FileAnswer::Undone);
    assert!(memory == former && result.machine == start);
    let filled = hex_words(&journal[..2 * result.pairs as usize]);
    // Two pairs, as the last place is no pair.
    let short = file_run(&mut memory, 0, &mut journal[..5], start, INSTRUCTIONS);
    assert_eq!(short.answer, FileAnswer::JournalFull);
    assert!(memory == former && short.machine == start);
    lines([
        file_line("file run", &result),
        format!("journal{filled}"),
        "memory and machine as before: yes".into(),
        file_line("short journal", &short),
    ])
}

fn comes_to_halt(mut memory: Vec<u32>, waits: &[u16], start: Machine) -> String {
    let mut copy = memory.clone();
    let result = run(&mut memory, 0, waits, 0, start, INSTRUCTIONS);
    assert_eq!(result.answer, Answer::Stopped(Stop::NoInstruction));
    let gates = gate_run(&mut copy, 0, waits, &[], GateState::start(start), u64::MAX);
    assert_eq!(copy, memory, "both engines leave the same memory");
    let pc = result.machine.registers[0];
    lines([
        run_line("run", &result),
        format!("next{}", hex_words(&[pc, memory[pc as usize]])),
        gate_line(&gates),
    ])
}

/// With its loader fixed, with no word fixed, and with one word more than there are.
fn holds_a_loader(memory: &[u32], waits: &[u16], start: Machine) -> String {
    let past = memory.len() as u32 + 1;
    let refused = run(&mut memory.to_vec(), past, waits, 0, start, INSTRUCTIONS);
    let Answer::Refused(refusal) = refused.answer else {
        panic!("a bottom past the memory is refused");
    };
    let bottoms = [LOADER.end as u32, 0];
    let text = bottoms.map(|bottom| above_bottom(memory, bottom, waits, start));
    text.concat() + &format!("bottom {past}: refused {refusal}\n")
}

fn above_bottom(memory: &[u32], bottom: u32, waits: &[u16], start: Machine) -> String {
    let [mut left, mut copy, mut filed] = [(); 3].map(|()| memory.to_vec());
    let result = run(&mut left, bottom, waits, 0, start, INSTRUCTIONS);
    let state = GateState::start(start);
    let gates = gate_run(&mut copy, bottom, waits, &[], state, result.clocks);
    assert_eq!(copy, left, "both engines leave the same memory");
    let mut journal = vec![0; 2 * INSTRUCTIONS as usize];
    let file = file_run(&mut filed, bottom, &mut journal, start, INSTRUCTIONS);
    let words = [&left[LOADER], &left[LOADED_ACCUMULATORS]].map(hex_words);
    let again = run(&mut left, bottom, waits, 0, start, INSTRUCTIONS);
    lines([
        format!("bottom {bottom}"),
        run_line("run", &result),
        format!("loader{}", words[0]),
        format!("accumulators{}", words[1]),
        gate_line(&gates),
        file_line("file run", &file),
        run_line("again", &again),
    ])
}
