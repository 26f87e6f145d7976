//! The ledger: what an image's first instructions do, as text.

use crate::image;
use crate::interpreter::{step, Stop};
use crate::machine::Machine;

/// The most bytes the program reads: one more than the largest image needs.
pub const MOST_INPUT: usize = 16_453;
/// Words of memory lent to the image reader.
const MEMORY_WORDS: usize = 4_096;
/// No word is fixed (CR 6).
const BOTTOM: u32 = 0;
/// The most instructions listed.
const MOST_LINES: u32 = 16;

/// The ledger of an image.
pub fn ledger(image: &[u8]) -> String {
    let mut memory = vec![0; MEMORY_WORDS];
    let loaded = image::read(image, &mut memory);
    match loaded.answer {
        Err(refusal) => format!("refused {refusal}\n"),
        Ok(()) => list(&mut memory[..loaded.words as usize], loaded.machine),
    }
}

fn list(memory: &mut [u32], mut machine: Machine) -> String {
    let mut text = String::from("step pc word clocks cvnz\n");
    let mut total = 0;
    for number in 1..=MOST_LINES {
        let pc = machine.registers[0];
        // Before the step, as the instruction may overwrite itself.
        let word = memory.get(pc as usize).copied().unwrap_or_default();
        let step = match step(memory, BOTTOM, &mut machine) {
            Ok(step) => step,
            Err(stop) => return text + &format!("{} {} {total}\n", ending(stop), number - 1),
        };
        total += step.clocks;
        let flags = machine.flags.digits();
        text += &format!("{number} {pc:08X} {word:08X} {} {flags}\n", step.clocks);
    }
    text + &format!("finished {MOST_LINES} {total}\n")
}

fn ending(stop: Stop) -> &'static str {
    match stop {
        Stop::Outside => "outside",
        Stop::NoInstruction => "halted",
    }
}
