//! The two adders of a number of bits, out of gates; bits stand lowest first.

use crate::gate_primitives::{and, or, xor};

pub type Bits<const N: usize> = [bool; N];

/// Adds two numbers and a carry: sum and carry out. The carry goes up from bit
/// to bit.
pub fn ripple_add<const N: usize>(x: &Bits<N>, y: &Bits<N>, carry_in: bool) -> (Bits<N>, bool) {
    let mut sum = [false; N];
    let mut carry = carry_in;
    for i in 0..N {
        let half = xor(x[i], y[i]);
        sum[i] = xor(half, carry);
        carry = or(and(x[i], y[i]), and(half, carry));
    }
    (sum, carry)
}

/// The same by the adder of the new card (CR 8), for widths that are powers of
/// two: two adders of half the width, each made the same way down to one bit.
pub fn halves_add<const N: usize>(x: &Bits<N>, y: &Bits<N>, carry_in: bool) -> (Bits<N>, bool) {
    assert!(N.is_power_of_two(), "a width of {N} is no power of two");
    let mut sum = [false; N];
    join_halves(x, y, carry_in, &mut sum);
    (sum, Range::of(x, y).carry_out(carry_in))
}

/// What a range of bits does to carries, whatever comes into it.
struct Range {
    /// It gives one out even if none comes in.
    makes: bool,
    /// Each of its places gives one out if one comes in.
    passes: bool,
}

impl Range {
    fn of(x: &[bool], y: &[bool]) -> Range {
        if let ([x], [y]) = (x, y) {
            return Range {
                makes: and(*x, *y),
                passes: or(*x, *y),
            };
        }
        let middle = x.len() / 2;
        let low = Range::of(&x[..middle], &y[..middle]);
        let high = Range::of(&x[middle..], &y[middle..]);
        Range {
            makes: or(high.makes, and(high.passes, low.makes)),
            passes: and(high.passes, low.passes),
        }
    }

    fn carry_out(&self, carry_in: bool) -> bool {
        or(self.makes, and(self.passes, carry_in))
    }
}

/// The sum alone. The upper half's carry in is worked out from what the lower
/// half's bits make and pass on, without its sum.
fn join_halves(x: &[bool], y: &[bool], carry_in: bool, sum: &mut [bool]) {
    if let ([x], [y], [sum]) = (x, y, &mut *sum) {
        *sum = xor(xor(*x, *y), carry_in);
        return;
    }
    let middle = x.len() / 2;
    let (x_low, x_high) = x.split_at(middle);
    let (y_low, y_high) = y.split_at(middle);
    let (sum_low, sum_high) = sum.split_at_mut(middle);
    let between = Range::of(x_low, y_low).carry_out(carry_in);
    join_halves(x_low, y_low, carry_in, sum_low);
    join_halves(x_high, y_high, between, sum_high);
}
