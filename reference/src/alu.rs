//! The arithmetic of document 01 on whole words.

use crate::machine::Flags;

/// A result and the flags it would set if all were permitted.
#[derive(Clone, Copy, Debug, Default, PartialEq, Eq)]
pub struct AluResult {
    pub word: u32,
    pub flags: Flags,
}

impl AluResult {
    /// N and Z are those of the word.
    pub fn of(word: u32, carry: bool, overflow: bool) -> AluResult {
        AluResult {
            word,
            flags: Flags {
                carry,
                overflow,
                negative: word >> 31 == 1,
                zero: word == 0,
            },
        }
    }
}

/// Operation `operation` (its low four bits) on `a`, `b` and the old carry.
pub fn alu(operation: u8, a: u32, b: u32, carry: bool) -> AluResult {
    let plain = |word| (word, false, false);
    // The bit shifted out becomes the carry.
    let halved = |top: bool| (a >> 1 | u32::from(top) << 31, a & 1 == 1, false);
    let (word, carry, overflow) = match operation & 15 {
        1 => sum(a, 1, false),
        2 => sum(b, a, carry),
        3 => sum(b, a, false),
        4 => difference(0, a, false),
        5 => difference(a, 1, false),
        6 => difference(b, a, carry),
        7 => difference(b, a, false),
        8 => halved(carry),
        9 => halved(a >> 31 == 1),
        10 => halved(false),
        11 => plain(a ^ b),
        12 => plain(a | b),
        13 => plain(a & b),
        14 => plain(!a),
        _ => plain(a),
    };
    AluResult::of(word, carry, overflow)
}

/// Word, carry and overflow of x + y + carry.
fn sum(x: u32, y: u32, carry: bool) -> (u32, bool, bool) {
    let unsigned = u64::from(x) + u64::from(y) + u64::from(carry);
    let signed = signed(x) + signed(y) + i64::from(carry);
    (unsigned as u32, unsigned >> 32 != 0, leaves_range(signed))
}

/// Word, borrow and overflow of x - y - borrow.
fn difference(x: u32, y: u32, borrow: bool) -> (u32, bool, bool) {
    let unsigned = i64::from(x) - i64::from(y) - i64::from(borrow);
    let signed = signed(x) - signed(y) - i64::from(borrow);
    (unsigned as u32, unsigned < 0, leaves_range(signed))
}

fn signed(word: u32) -> i64 {
    i64::from(word as i32)
}

fn leaves_range(value: i64) -> bool {
    i32::try_from(value).is_err()
}
