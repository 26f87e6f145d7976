//! What the unit's words mean as integers (CR 13), at any width from 1 to 32 bits.

use crate::alu::AluResult;
use std::fmt;

/// The operations that have a meaning in integers.
const MEANT: [u8; 8] = [1, 2, 3, 4, 5, 6, 7, 9];

/// Words next to the ends of the signed and of the unsigned numbers of 32 bits.
pub const ENDS: [u32; 9] = [
    0,
    1,
    2,
    0x7FFF_FFFE,
    0x7FFF_FFFF,
    0x8000_0000,
    0x8000_0001,
    0xFFFF_FFFE,
    0xFFFF_FFFF,
];

/// One use of a unit of `width` bits, with the move bit 0.
#[derive(Clone, Copy)]
pub struct Use {
    pub width: u32,
    pub operation: u8,
    pub a: u32,
    pub b: u32,
    pub carry: bool,
}

impl fmt::Display for Use {
    fn fmt(&self, f: &mut fmt::Formatter) -> fmt::Result {
        let Use {
            width,
            operation,
            a,
            b,
            carry,
        } = self;
        write!(
            f,
            "operation {operation} on {width} bits, a {a:X} b {b:X} carry {carry}"
        )
    }
}

impl Use {
    /// Each operation that has a meaning, with both carries.
    pub fn each(width: u32, a: u32, b: u32) -> impl Iterator<Item = Use> {
        let cases = move |operation| {
            [false, true].map(|carry| Use {
                width,
                operation,
                a,
                b,
                carry,
            })
        };
        MEANT.into_iter().flat_map(cases)
    }

    /// Whether an answer, with C and V as computed, meets all that CR 13 states of
    /// this use. Of other operations it states nothing.
    pub fn means(&self, answer: &AluResult) -> bool {
        self.means_signed(answer) && self.means_halved(answer) && self.means_unsigned(answer)
    }

    /// "For operations 1 to 7, wherever V is 0 the signed result is the true integer
    /// result", and what follows it.
    fn means_signed(&self, answer: &AluResult) -> bool {
        match self.true_result(self.signed(self.a), self.signed(self.b)) {
            Some(exact) => {
                self.exact_or_off(self.signed(answer.word), exact, answer.flags.overflow)
            }
            None => true,
        }
    }

    /// "Operation 9 is halving rounded down, for negative numbers too."
    fn means_halved(&self, answer: &AluResult) -> bool {
        self.operation != 9 || self.signed(answer.word) == self.signed(self.a).div_euclid(2)
    }

    /// "For 1 to 3 the same is shown of unsigned numbers and C."
    fn means_unsigned(&self, answer: &AluResult) -> bool {
        match self.true_result(self.a.into(), self.b.into()) {
            Some(exact) if self.operation <= 3 => {
                self.exact_or_off(answer.word.into(), exact, answer.flags.carry)
            }
            _ => true,
        }
    }

    /// The true integer result of 1 to 7, however the words were read. The 1, the 0
    /// and the carry are integers, not words, which at 1 bit would be read as -1.
    fn true_result(&self, a: i64, b: i64) -> Option<i64> {
        let c = i64::from(self.carry);
        match self.operation {
            1 => Some(a + 1),
            2 => Some(b + a + c),
            3 => Some(b + a),
            4 => Some(0 - a),
            5 => Some(a - 1),
            6 => Some(b - a - c),
            7 => Some(b - a),
            _ => None,
        }
    }

    /// "Wherever V is 0 the signed result is the true integer result; wherever V is 1
    /// it is off by exactly 2^w, down if the true result is positive, up if negative."
    /// No word is 2^w off 0, so a true result of 0 with the flag is refused too.
    fn exact_or_off(&self, seen: i64, exact: i64, flag: bool) -> bool {
        if !flag {
            return seen == exact;
        }
        let words = 1_i64 << self.width;
        let off = seen - exact;
        let by_exactly = off.abs() == words;
        let down_if_positive = exact <= 0 || off == -words;
        let up_if_negative = exact >= 0 || off == words;
        by_exactly && down_if_positive && up_if_negative
    }

    /// The top bit weighs -2^(w-1).
    fn signed(&self, word: u32) -> i64 {
        let words = 1_i64 << self.width;
        let word = i64::from(word);
        if word >= words / 2 {
            word - words
        } else {
            word
        }
    }
}
