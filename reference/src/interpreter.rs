//! The interpreter: whole instructions, with the clocks they would take.

use crate::alu::alu;
use crate::instruction::{is_instruction, Instruction, Operand};
use crate::machine::Machine;
use crate::refusal::{check_memory_and_bottom, check_position, check_waits, Refusal};

/// How a run ended.
#[derive(Clone, Copy, Debug, PartialEq, Eq)]
pub enum Answer {
    Finished,
    Stopped(Stop),
    Refused(Refusal),
}

/// Why the next instruction does not run.
#[derive(Clone, Copy, Debug, PartialEq, Eq)]
pub enum Stop {
    /// It needs a word that memory does not have.
    Outside,
    /// The word at r0 is no instruction (CR 5).
    NoInstruction,
}

#[derive(Clone, Copy, Debug, PartialEq, Eq)]
pub struct RunResult {
    pub answer: Answer,
    pub machine: Machine,
    /// Instructions that ran.
    pub ran: u32,
    /// Clocks of the instructions that ran, their waits included.
    pub clocks: u64,
    /// The list position after the instructions that ran, for a run that goes on.
    pub position: u32,
}

/// What one instruction did besides changing the machine.
#[derive(Clone, Copy, Debug, PartialEq, Eq)]
pub struct Step {
    /// Clocks without waits.
    pub clocks: u64,
    /// Memory accesses, each of which takes an entry of the wait list.
    pub accesses: usize,
    /// Address and former word of a store to memory that is not below the bottom.
    pub stored: Option<(u32, u32)>,
    /// Whether it had a store below the bottom, which alters nothing (CR 6).
    pub below_bottom: bool,
}

/// Runs `count` instructions, or fewer if there is a reason to stop before one. The
/// words of memory below `bottom` do not change (CR 6). The first access takes the
/// entry of the wait list at `position` (CR 7).
pub fn run(
    memory: &mut [u32],
    bottom: u32,
    waits: &[u16],
    position: u32,
    start: Machine,
    count: u32,
) -> RunResult {
    let mut result = RunResult {
        answer: Answer::Finished,
        machine: start,
        ran: 0,
        clocks: 0,
        position,
    };
    if let Err(refusal) = check(memory.len(), bottom, waits.len(), position) {
        result.answer = Answer::Refused(refusal);
        return result;
    }
    while result.ran < count {
        let step = match step(memory, bottom, &mut result.machine) {
            Ok(step) => step,
            Err(stop) => {
                result.answer = Answer::Stopped(stop);
                break;
            }
        };
        let waited = wait(waits, &mut result.position, step.accesses);
        result.clocks += step.clocks + waited;
        result.ran += 1;
    }
    result
}

fn check(words: usize, bottom: u32, entries: usize, position: u32) -> Result<(), Refusal> {
    check_memory_and_bottom(words, bottom)?;
    check_waits(entries)?;
    check_position(entries, position)
}

/// The waits of so many accesses. The list begins again at its end; an empty one has
/// no waits, and its position stays 0 (CR 3).
fn wait(waits: &[u16], position: &mut u32, accesses: usize) -> u64 {
    let mut waited = 0;
    for _ in 0..accesses {
        let Some(&wait) = waits.get(*position as usize) else {
            break;
        };
        waited += u64::from(wait);
        *position += 1;
        if *position as usize == waits.len() {
            *position = 0;
        }
    }
    waited
}

/// Carries out the instruction at r0, or changes nothing and says why not; B's word
/// is needed even where nothing will be stored.
pub fn step(memory: &mut [u32], bottom: u32, machine: &mut Machine) -> Result<Step, Stop> {
    let before = machine.registers;
    let step = try_step(memory, bottom, machine);
    if step.is_err() {
        machine.registers = before;
    }
    step
}

/// As [`step`], but r0 and registers stepped down stay so if a word is missing.
fn try_step(memory: &mut [u32], bottom: u32, machine: &mut Machine) -> Result<Step, Stop> {
    let Machine { registers, flags } = machine;
    let instruction = fetch(memory, registers[0])?;
    registers[0] = registers[0].wrapping_add(1);
    let (a, _) = take(instruction.a, memory, registers)?;
    let (b, address) = take(instruction.b, memory, registers)?;

    let result = alu(instruction.alu_operation(), a, b, flags.carry);
    let stores = instruction.stores(*flags);
    *flags = flags.updated(result.flags, instruction.permit);
    let to_memory = stores && instruction.b.in_memory();
    let below_bottom = to_memory && address < bottom;
    let mut stored = None;
    if to_memory && !below_bottom {
        memory[address as usize] = result.word;
        stored = Some((address, b));
    } else if stores && !to_memory {
        registers[instruction.b.register()] = result.word;
    }
    instruction.a.step_up(registers);
    instruction.b.step_up(registers);

    let operands_in_memory =
        usize::from(instruction.a.in_memory()) + usize::from(instruction.b.in_memory());
    Ok(Step {
        clocks: 8 + operands_in_memory as u64 + u64::from(stores),
        // A store below the bottom is acknowledged like any other (CR 6).
        accesses: 1 + operands_in_memory + usize::from(to_memory),
        stored,
        below_bottom,
    })
}

/// The instruction at an address: whether the word is there, then whether it is one.
/// Its operands, which may be missing too, are taken only after that (CR 5).
fn fetch(memory: &[u32], address: u32) -> Result<Instruction, Stop> {
    let word = read(memory, address)?;
    if !is_instruction(word) {
        return Err(Stop::NoInstruction);
    }
    Ok(Instruction::decode(word))
}

fn read(memory: &[u32], address: u32) -> Result<u32, Stop> {
    memory.get(address as usize).copied().ok_or(Stop::Outside)
}

/// An operand's value and, if it is in memory, its address (otherwise 0).
fn take(operand: Operand, memory: &[u32], registers: &mut [u32; 8]) -> Result<(u32, u32), Stop> {
    operand.step_down(registers);
    let content = registers[operand.register()];
    if operand.in_memory() {
        Ok((read(memory, content)?, content))
    } else {
        Ok((content, 0))
    }
}
