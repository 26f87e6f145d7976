//! The instruction word and its fields.

use crate::machine::Flags;

/// Bit 14 and bits 20-31: no instruction has one of these set (CR 5).
pub const HALTING_BITS: u32 = 1 << 14 | 0xFFF << 20;

/// Whether a fetched word is an instruction; the card halts on any other (CR 5).
pub fn is_instruction(word: u32) -> bool {
    word & HALTING_BITS == 0
}

/// Where an operand is, with the number of its register.
#[derive(Clone, Copy, Debug, PartialEq, Eq)]
pub enum Operand {
    /// The register itself.
    Direct(u8),
    /// The memory word the register points at.
    Indirect(u8),
    /// As `Indirect`, after the register has stepped down.
    Before(u8),
    /// As `Indirect`; the register steps up at the end of the instruction.
    After(u8),
}

impl Operand {
    /// From the five bits of a field: register in bits 0-2, mode in bits 3-4.
    pub fn decode(field: u32) -> Operand {
        let register = (field & 7) as u8;
        match field >> 3 & 3 {
            0 => Operand::Direct(register),
            1 => Operand::Indirect(register),
            2 => Operand::Before(register),
            _ => Operand::After(register),
        }
    }

    /// The inverse of [`Operand::decode`].
    pub fn encode(self) -> u32 {
        let mode = match self {
            Operand::Direct(_) => 0,
            Operand::Indirect(_) => 1,
            Operand::Before(_) => 2,
            Operand::After(_) => 3,
        };
        mode << 3 | self.register() as u32
    }

    pub fn register(self) -> usize {
        match self {
            Operand::Direct(register)
            | Operand::Indirect(register)
            | Operand::Before(register)
            | Operand::After(register) => usize::from(register),
        }
    }

    pub fn in_memory(self) -> bool {
        !matches!(self, Operand::Direct(_))
    }

    /// Steps the register down if the mode asks for it.
    pub fn step_down(self, registers: &mut [u32; 8]) {
        if let Operand::Before(register) = self {
            let cell = &mut registers[usize::from(register)];
            *cell = cell.wrapping_sub(1);
        }
    }

    /// Steps the register up if the mode asks for it.
    pub fn step_up(self, registers: &mut [u32; 8]) {
        if let Operand::After(register) = self {
            let cell = &mut registers[usize::from(register)];
            *cell = cell.wrapping_add(1);
        }
    }
}

/// The fields of a word, an instruction or not; its halting bits are gone.
#[derive(Clone, Copy, Debug, PartialEq, Eq)]
pub struct Instruction {
    pub a: Operand,
    pub b: Operand,
    /// The flags that may change.
    pub permit: Flags,
    pub is_move: bool,
    /// The operation, or the condition if `is_move`; 0 to 15.
    pub operation: u8,
}

impl Instruction {
    pub fn decode(word: u32) -> Instruction {
        let bit = |number: u32| word >> number & 1 == 1;
        Instruction {
            a: Operand::decode(word),
            b: Operand::decode(word >> 5),
            permit: Flags {
                zero: bit(10),
                negative: bit(11),
                overflow: bit(12),
                carry: bit(13),
            },
            is_move: bit(15),
            operation: (word >> 16 & 15) as u8,
        }
    }

    /// The instruction word with these fields.
    pub fn encode(self) -> u32 {
        self.a.encode()
            | self.b.encode() << 5
            | u32::from(self.permit.zero) << 10
            | u32::from(self.permit.negative) << 11
            | u32::from(self.permit.overflow) << 12
            | u32::from(self.permit.carry) << 13
            | u32::from(self.is_move) << 15
            | u32::from(self.operation & 15) << 16
    }

    /// What the arithmetic unit is asked to do: a move passes a on.
    pub fn alu_operation(self) -> u8 {
        if self.is_move {
            0
        } else {
            self.operation
        }
    }

    /// Whether the result is stored; `flags` are those before the instruction.
    pub fn stores(self, flags: Flags) -> bool {
        if !self.is_move {
            return true;
        }
        match self.operation {
            0 => !flags.carry,
            1 => flags.carry,
            2 => !flags.overflow,
            3 => flags.overflow,
            4 => !flags.zero,
            5 => flags.zero,
            6 => !flags.negative,
            7 => flags.negative,
            _ => true,
        }
    }
}
