//! What a programmer sees of the card, memory apart.

/// The four flags; also used to hold one permit bit for each of them.
#[derive(Clone, Copy, Debug, Default, PartialEq, Eq)]
pub struct Flags {
    pub carry: bool,
    pub overflow: bool,
    pub negative: bool,
    pub zero: bool,
}

impl Flags {
    /// Takes from `new` the flags that `permit` allows and keeps the others.
    pub fn updated(self, new: Flags, permit: Flags) -> Flags {
        let choose = |permitted, new, old| if permitted { new } else { old };
        Flags {
            carry: choose(permit.carry, new.carry, self.carry),
            overflow: choose(permit.overflow, new.overflow, self.overflow),
            negative: choose(permit.negative, new.negative, self.negative),
            zero: choose(permit.zero, new.zero, self.zero),
        }
    }

    /// In the order C, V, N, Z, as images and the ledger have them.
    pub fn to_array(self) -> [bool; 4] {
        [self.carry, self.overflow, self.negative, self.zero]
    }

    /// The inverse of [`Flags::to_array`].
    pub fn from_array([carry, overflow, negative, zero]: [bool; 4]) -> Flags {
        Flags {
            carry,
            overflow,
            negative,
            zero,
        }
    }

    /// Four digits 0 or 1 in the order C, V, N, Z, as the ledger prints them.
    pub fn digits(self) -> String {
        let digit = |flag| if flag { '1' } else { '0' };
        self.to_array().map(digit).iter().collect()
    }
}

/// Eight registers, r0 being the program counter, and the flags.
#[derive(Clone, Copy, Debug, Default, PartialEq, Eq)]
pub struct Machine {
    pub registers: [u32; 8],
    pub flags: Flags,
}
