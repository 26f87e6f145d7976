//! The arithmetic unit on whole words: result, carry, overflow.

#[inline(always)]
pub fn word_unit(operation: u32, a: u32, b: u32, carry: bool) -> (u32, bool, bool) {
    match operation {
        1 => sum(a, 1, false),
        2 => sum(b, a, carry),
        3 => sum(b, a, false),
        4 => difference(0, a, false),
        5 => difference(a, 1, false),
        6 => difference(b, a, carry),
        7 => difference(b, a, false),
        8 => (a >> 1 | u32::from(carry) << 31, a & 1 != 0, false),
        9 => ((a as i32 >> 1) as u32, a & 1 != 0, false),
        10 => (a >> 1, a & 1 != 0, false),
        11 => (a ^ b, false, false),
        12 => (a | b, false, false),
        13 => (a & b, false, false),
        14 => (!a, false, false),
        _ => (a, false, false),
    }
}

#[inline(always)]
fn sum(x: u32, y: u32, carry: bool) -> (u32, bool, bool) {
    let (sum, first) = x.overflowing_add(y);
    let (sum, second) = sum.overflowing_add(u32::from(carry));
    (sum, first | second, ((x ^ sum) & (y ^ sum)) >> 31 != 0)
}

#[inline(always)]
fn difference(x: u32, y: u32, borrow: bool) -> (u32, bool, bool) {
    let (rest, first) = x.overflowing_sub(y);
    let (rest, second) = rest.overflowing_sub(u32::from(borrow));
    (rest, first | second, ((x ^ y) & (x ^ rest)) >> 31 != 0)
}
