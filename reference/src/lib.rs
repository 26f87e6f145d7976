//! An independent emulator of the FM8502 recorder card.
//!
//! "Document 01" is the paper that defines instructions, clocks and images,
//! "document 02" lists changes to it (CR 3 and so on), and "report 48" is the
//! FM8502 report they rest on. This library was written from those alone, so that
//! it can check another emulator.

pub mod adders;
pub mod alu;
pub mod file_run;
pub mod gate_alu;
mod gate_primitives;
pub mod gates;
pub mod generate;
pub mod image;
pub mod instruction;
pub mod interpreter;
mod journal;
pub mod ledger;
pub mod machine;
pub mod meaning;
pub mod refusal;
pub mod rng;
pub mod traverse;
pub mod vectors;

pub use file_run::{file_run, FileAnswer, FileResult};
pub use gates::{gate_clock, gate_run, GateResult, GateState};
pub use instruction::{is_instruction, Instruction, Operand, HALTING_BITS};
pub use interpreter::{run, step, Answer, RunResult, Step, Stop};
pub use machine::{Flags, Machine};
pub use refusal::Refusal;
pub use traverse::{traverse, File, TraverseAnswer, TraverseResult};
