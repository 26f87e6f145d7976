//! The machine and the gate state, and the words that the library takes them as.

/// The words of a machine.
pub const MACHINE_SIZE: usize = 12;
/// The words of a gate state: the machine's first.
pub const STATE_SIZE: usize = 21;

/// The four flags.
#[derive(Clone, Copy, Debug, Default, PartialEq, Eq)]
pub struct Flags {
    pub carry: bool,
    pub overflow: bool,
    pub negative: bool,
    pub zero: bool,
}

/// Eight registers, r0 being the program counter, and the flags.
#[derive(Clone, Copy, Debug, Default, PartialEq, Eq)]
pub struct Machine {
    pub registers: [u32; 8],
    pub flags: Flags,
}

impl Machine {
    /// r0 to r7, then C, V, N, Z.
    pub(crate) fn to_words(self) -> [u32; MACHINE_SIZE] {
        let mut words = [0; MACHINE_SIZE];
        words[..8].copy_from_slice(&self.registers);
        words[8] = u32::from(self.flags.carry);
        words[9] = u32::from(self.flags.overflow);
        words[10] = u32::from(self.flags.negative);
        words[11] = u32::from(self.flags.zero);
        words
    }

    pub(crate) fn from_words(words: &[u32]) -> Machine {
        let mut registers = [0; 8];
        registers.copy_from_slice(&words[..8]);
        Machine {
            registers,
            flags: Flags {
                carry: words[8] != 0,
                overflow: words[9] != 0,
                negative: words[10] != 0,
                zero: words[11] != 0,
            },
        }
    }
}

/// The gate machine between two clocks.
#[derive(Clone, Copy, Debug, Default, PartialEq, Eq)]
pub struct GateState {
    pub machine: Machine,
    /// The row to be done next, 0 to 12; row 0 is between instructions, and in row 12
    /// the machine has halted until a reset.
    pub row: u8,
    pub instruction: u32,
    pub address: u32,
    pub a: u32,
    pub b: u32,
    pub result: u32,
    /// Position of the next entry of the wait list, below its length; 0 for an empty list.
    pub position: u32,
    /// Whether an access has begun, with its clocks left, the completing one included.
    pub begun: bool,
    pub left: u16,
}

impl GateState {
    /// Between instructions, at the head of the wait list, latches 0.
    pub fn start(machine: Machine) -> GateState {
        GateState {
            machine,
            ..GateState::default()
        }
    }

    pub(crate) fn to_words(self) -> [u32; STATE_SIZE] {
        let mut words = [0; STATE_SIZE];
        words[..MACHINE_SIZE].copy_from_slice(&self.machine.to_words());
        words[MACHINE_SIZE..].copy_from_slice(&[
            u32::from(self.row),
            self.instruction,
            self.address,
            self.a,
            self.b,
            self.result,
            self.position,
            u32::from(self.begun),
            u32::from(self.left),
        ]);
        words
    }

    pub(crate) fn from_words(words: &[u32]) -> GateState {
        GateState {
            machine: Machine::from_words(&words[..MACHINE_SIZE]),
            row: words[12] as u8,
            instruction: words[13],
            address: words[14],
            a: words[15],
            b: words[16],
            result: words[17],
            position: words[18],
            begun: words[19] != 0,
            left: words[20] as u16,
        }
    }
}
