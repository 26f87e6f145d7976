//! Operands of an instruction word, with their modes as numbers: a match on four
//! cases would become a jump through a table, which is hard to predict.

pub const DIRECT: u32 = 0;
const BEFORE: u32 = 2;
const AFTER: u32 = 3;

#[derive(Clone, Copy)]
pub struct Operand {
    pub mode: u32,
    pub register: usize,
}

impl Operand {
    #[inline(always)]
    pub fn of(field: u32) -> Operand {
        Operand {
            mode: field >> 3 & 3,
            register: (field & 7) as usize,
        }
    }

    #[inline(always)]
    pub fn step_down(self, registers: &mut [u32; 8]) {
        if self.mode == BEFORE {
            registers[self.register] = registers[self.register].wrapping_sub(1);
        }
    }

    /// Undoes [`Operand::step_down`].
    #[inline(always)]
    pub fn take_back(self, registers: &mut [u32; 8]) {
        if self.mode == BEFORE {
            registers[self.register] = registers[self.register].wrapping_add(1);
        }
    }

    #[inline(always)]
    pub fn step_up(self, registers: &mut [u32; 8]) {
        if self.mode == AFTER {
            registers[self.register] = registers[self.register].wrapping_add(1);
        }
    }
}
