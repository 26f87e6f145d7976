//! Emulators to measure the proved one against. All have the library's calls on
//! words; only the reference emulator refuses bad input.

pub mod c;
mod gate_machine;
pub mod gate_unit;
mod image;
mod interpreter;
mod journal;
mod of_reference;
mod operand;
mod traverse;
mod word_unit;

use fm8502::library;

/// The calls, with their arguments as in [`fm8502::library`].
type Run = fn(&mut [u32], u32, &[u16], u32, &mut [u32], u32, &mut [u64]) -> u32;
type FileRun = fn(&mut [u32], u32, &mut [u32], &mut [u32], u32, &mut [u64]) -> u32;
type GateRun = fn(&mut [u32], u32, &[u16], &[u64], &mut [u32], u64, &mut [u64]) -> u32;
type ImageRead = fn(&[u8], &mut [u32], &mut [u32], &mut [u64]) -> u32;
type ImageWrite = fn(&[u32], &[u32], u32, &mut [u8], &mut [u64]) -> u32;
type Traverse = fn(&mut [u32], u32, &mut [u32], &[u32], &[u32], &mut [u32], u32, &mut [u64]) -> u32;

/// One emulator.
pub struct Contender {
    pub name: &'static str,
    pub run: Run,
    pub file_run: FileRun,
    pub traverse: Traverse,
    pub gate_run: GateRun,
    pub image_read: ImageRead,
    pub image_write: ImageWrite,
}

/// The proved emulator comes first; the ratios are its own to the others.
pub const CONTENDERS: [Contender; 4] = [
    Contender {
        name: "proved",
        run: library::run,
        file_run: library::file_run,
        traverse: library::traverse,
        gate_run: library::gate_run,
        image_read: library::image_read,
        image_write: library::image_write,
    },
    Contender {
        name: "reference",
        run: of_reference::run,
        file_run: of_reference::file_run,
        traverse: of_reference::traverse,
        gate_run: of_reference::gate_run,
        image_read: of_reference::image_read,
        image_write: of_reference::image_write,
    },
    Contender {
        name: "Rust",
        run: interpreter::run,
        file_run: interpreter::file_run,
        traverse: traverse::traverse,
        gate_run: gate_machine::gate_run,
        image_read: image::image_read,
        image_write: image::image_write,
    },
    Contender {
        name: "C",
        run: c::run,
        file_run: c::file_run,
        traverse: c::traverse,
        gate_run: c::gate_run,
        image_read: c::image_read,
        image_write: c::image_write,
    },
];

/// Bit 14 and bits 20-31: a word with one of them is no instruction.
const HALTING_BITS: u32 = 0xFFF0_4000;
