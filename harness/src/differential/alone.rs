//! One operation alone: an instruction on r1 and r2 with all flags permitted. No bottom
//! makes a difference to it, as it stores to a register.

use crate::words::compute;
use reference::{Flags, Machine, Operand};

/// An instruction on registers that stores its result.
pub const CLOCKS: u64 = 9;

/// Without a fixed word, and with the whole memory fixed.
pub const BOTTOMS: [u32; 2] = [0, 1];

/// The memory and the machine at its start.
pub fn alone(operation: u8, a: u32, b: u32, carry: bool) -> ([u32; 1], Machine) {
    let [r1, r2] = [Operand::Direct(1), Operand::Direct(2)];
    let flags = Flags::from_array([carry, false, false, false]);
    let memory = [compute(operation, [true; 4], r1, r2)];
    (memory, machine(0, a, b, flags))
}

pub fn machine(r0: u32, r1: u32, r2: u32, flags: Flags) -> Machine {
    Machine {
        registers: [r0, r1, r2, 0, 0, 0, 0, 0],
        flags,
    }
}
