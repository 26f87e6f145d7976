//! The gates: one or two inputs, each a single bit; and a selector made of them.

#[inline]
pub fn not(x: bool) -> bool {
    !x
}

#[inline]
pub fn and(x: bool, y: bool) -> bool {
    x & y
}

#[inline]
pub fn or(x: bool, y: bool) -> bool {
    x | y
}

#[inline]
pub fn xor(x: bool, y: bool) -> bool {
    x ^ y
}

/// `x` if `choice`, else `y`.
#[inline]
pub fn select(choice: bool, x: bool, y: bool) -> bool {
    or(and(choice, x), and(not(choice), y))
}
