//! The gate machine: document 01's twelve rows, one of them on each clock; document
//! 02's wait list, which begins again at its end (CR 3); its row 12, in which the
//! machine stays halted (CR 5); its bottom of memory, which no store alters (CR 6); and
//! its reset line, held on the clocks that a list names (CR 7).

use crate::gate_alu::gate_alu;
use crate::instruction::{is_instruction, Instruction, Operand};
use crate::machine::{Flags, Machine};
use crate::refusal::{check_memory_and_bottom, check_position, check_resets, check_waits, Refusal};

/// Entered when the word read is no instruction (CR 5), and left by a reset alone (CR 7).
pub const HALTED_ROW: u8 = 12;

/// The state between two clocks.
#[derive(Clone, Copy, Debug, Default, PartialEq, Eq)]
pub struct GateState {
    pub registers: [u32; 8],
    pub flags: Flags,
    /// The row to be done next; row 0 is between instructions.
    pub row: u8,
    pub instruction: u32,
    pub address: u32,
    pub a: u32,
    pub b: u32,
    pub result: u32,
    /// Which entry of the wait list the next access takes, from 0; 0 for an empty list.
    pub position: u32,
    /// Whether the row's access has taken its entry but is not complete.
    pub begun: bool,
    /// Clocks the begun access still takes, the completing one included.
    pub left: u16,
}

impl GateState {
    /// Between instructions, latches 0, at the beginning of the wait list.
    pub fn start(machine: Machine) -> GateState {
        GateState {
            registers: machine.registers,
            flags: machine.flags,
            ..GateState::default()
        }
    }

    pub fn machine(&self) -> Machine {
        Machine {
            registers: self.registers,
            flags: self.flags,
        }
    }

    pub fn between_instructions(&self) -> bool {
        self.row == 0
    }

    /// A clock on which reset is held: no row's work is done, and a begun access is
    /// dropped. The entry it took is used up, as the list position stays (CR 7).
    fn reset(&mut self) -> Clock {
        self.registers[0] = 0;
        self.row = 0;
        self.begun = false;
        self.left = 0;
        Clock::Moved
    }
}

#[derive(Clone, Copy, Debug, PartialEq, Eq)]
pub struct GateResult {
    pub answer: Result<(), Refusal>,
    pub state: GateState,
    /// Instructions finished in this run.
    pub finished: u64,
}

/// What became of one clock.
#[derive(Clone, Copy, PartialEq, Eq)]
enum Clock {
    Moved,
    Finished,
    /// Nothing changed, nor will on any later clock before a reset: the address is
    /// absent, or the machine has halted.
    Stuck,
}

/// Does `clocks` clocks, numbered from 0; on those that `resets` names reset is held.
pub fn gate_run(
    memory: &mut [u32],
    bottom: u32,
    waits: &[u16],
    resets: &[u64],
    state: GateState,
    clocks: u64,
) -> GateResult {
    let mut result = GateResult {
        answer: check(memory, bottom, waits, resets, &state),
        state,
        finished: 0,
    };
    if result.answer.is_err() {
        return result;
    }
    let mut resets = resets.iter().copied().peekable();
    let mut number = 0;
    while number < clocks {
        let held = resets.next_if_eq(&number).is_some();
        let done = if held {
            result.state.reset()
        } else {
            clock(memory, bottom, waits, &mut result.state)
        };
        result.finished += u64::from(done == Clock::Finished);
        number = match done {
            // The clocks up to the next reset change nothing.
            Clock::Stuck => resets.peek().copied().unwrap_or(clocks),
            _ => number + 1,
        };
    }
    result
}

/// Advances a lent state by one clock: the checks and outcome of a run of one without
/// resets. Returns how many instructions finished, 0 or 1.
pub fn gate_clock(
    memory: &mut [u32],
    bottom: u32,
    waits: &[u16],
    state: &mut GateState,
) -> Result<u64, Refusal> {
    check(memory, bottom, waits, &[], state)?;
    let clock = clock(memory, bottom, waits, state);
    Ok(u64::from(clock == Clock::Finished))
}

/// Reason 22 comes after 3 and before 4 (CR 7).
fn check(
    memory: &[u32],
    bottom: u32,
    waits: &[u16],
    resets: &[u64],
    state: &GateState,
) -> Result<(), Refusal> {
    check_memory_and_bottom(memory.len(), bottom)?;
    check_waits(waits.len())?;
    check_resets(resets)?;
    check_state(waits, state)
}

/// Reason 4.
fn check_state(waits: &[u16], state: &GateState) -> Result<(), Refusal> {
    let is_access = matches!(state.row, 1 | 4 | 6 | 9);
    if state.row > HALTED_ROW || state.begun && !is_access || state.begun != (state.left > 0) {
        return Err(Refusal::BadGateState);
    }
    check_position(waits.len(), state.position)
}

/// One row, or one clock of an access. The rows follow the table whatever the
/// instruction latch holds, as a lent state may stand in any row.
fn clock(memory: &mut [u32], bottom: u32, waits: &[u16], state: &mut GateState) -> Clock {
    let instruction = Instruction::decode(state.instruction);
    match state.row {
        0 => {
            state.address = state.registers[0];
            state.row = 1;
        }
        2 => {
            state.registers[0] = state.registers[0].wrapping_add(1);
            state.row = 3;
        }
        3 => state.row = take_a(state, instruction.a),
        5 => state.row = take_b(state, instruction.b),
        7 => state.row = compute(state, instruction),
        8 => {
            state.registers[instruction.b.register()] = state.result;
            state.row = 10;
        }
        10 => {
            instruction.a.step_up(&mut state.registers);
            state.row = 11;
        }
        11 => {
            instruction.b.step_up(&mut state.registers);
            state.row = 0;
            return Clock::Finished;
        }
        HALTED_ROW => return Clock::Stuck,
        _ => return access(memory, bottom, waits, state),
    }
    Clock::Moved
}

/// Row 3; returns the next row.
fn take_a(state: &mut GateState, operand: Operand) -> u8 {
    operand.step_down(&mut state.registers);
    let content = state.registers[operand.register()];
    if operand.in_memory() {
        state.address = content;
        4
    } else {
        state.a = content;
        5
    }
}

/// Row 5; returns the next row.
fn take_b(state: &mut GateState, operand: Operand) -> u8 {
    operand.step_down(&mut state.registers);
    let content = state.registers[operand.register()];
    if operand.in_memory() {
        state.address = content;
        6
    } else {
        state.b = content;
        7
    }
}

/// Row 7; returns the next row. The result is latched even if not stored.
fn compute(state: &mut GateState, instruction: Instruction) -> u8 {
    let old = state.flags;
    let result = gate_alu(instruction.alu_operation(), state.a, state.b, old.carry);
    state.result = result.word;
    state.flags = old.updated(result.flags, instruction.permit);
    if !instruction.stores(old) {
        10
    } else if instruction.b.in_memory() {
        9
    } else {
        8
    }
}

/// Rows 1, 4, 6 and 9. A store below the bottom is acknowledged like any other (CR 6).
fn access(memory: &mut [u32], bottom: u32, waits: &[u16], state: &mut GateState) -> Clock {
    let Some(cell) = memory.get_mut(state.address as usize) else {
        return Clock::Stuck;
    };
    if state.begun {
        state.left -= 1;
    } else if let Some(&wait) = waits.get(state.position as usize) {
        state.left = wait;
        state.position = (state.position + 1) % waits.len() as u32;
    }
    state.begun = state.left > 0;
    if !state.begun {
        state.row = complete(cell, bottom, state);
    }
    Clock::Moved
}

/// The access on its last clock; returns the next row.
fn complete(cell: &mut u32, bottom: u32, state: &mut GateState) -> u8 {
    match state.row {
        1 => {
            state.instruction = *cell;
            if is_instruction(*cell) {
                2
            } else {
                HALTED_ROW
            }
        }
        4 => {
            state.a = *cell;
            5
        }
        6 => {
            state.b = *cell;
            7
        }
        _ => {
            if state.address >= bottom {
                *cell = state.result;
            }
            10
        }
    }
}
