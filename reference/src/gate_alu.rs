//! The arithmetic unit out of gates of one and two inputs on single bits.
//!
//! As in report 48, selectors stand before the adder as well as behind it, so
//! that one adder serves operations 0 to 7.

use crate::adders::{ripple_add, Bits};
use crate::alu::AluResult;
use crate::gate_primitives::{and, not, or, select, xor};
use crate::machine::Flags;

/// The control lines decoded from the four bits of the operation.
struct Control {
    /// The result is the adder's (0-7).
    adder: bool,
    /// The adder gets the complement of a (4, 6, 7).
    complement_a: bool,
    /// The adder gets b (2, 3, 6, 7).
    use_b: bool,
    /// The adder gets ones in place of b (5).
    ones: bool,
    /// The adder's carry in.
    carry_in: bool,
    /// The adder's carry out is the complement of a borrow (4-7).
    borrow: bool,
    /// The result is a halved (8-10).
    halve: bool,
    /// The top bit of a halved.
    top: bool,
    /// The result has the bits where just one of a and b is 1 (11, 12).
    one_of: bool,
    /// The result has the bits where both a and b are 1 (12, 13).
    both_of: bool,
    /// The result is a or its complement (14, 15).
    pass: bool,
    /// Which of the two (14).
    complement_pass: bool,
}

impl Control {
    fn decode(operation: u8, a_top: bool, carry: bool) -> Control {
        let [o0, o1, o2, o3] = [0, 1, 2, 3].map(|i| operation >> i & 1 == 1);
        let low_pair = and(o0, o1);
        let upper_pair = and(o3, o2);
        let shift_group = and(o3, not(o2));
        let and_or_group = and(upper_pair, not(o1));
        Control {
            adder: not(o3),
            complement_a: and(o2, or(o1, not(o0))),
            use_b: o1,
            ones: and(and(o2, o0), not(o1)),
            carry_in: xor(o2, select(o1, and(carry, not(o0)), o0)),
            borrow: o2,
            halve: and(shift_group, not(low_pair)),
            top: and(not(o1), select(o0, a_top, carry)),
            one_of: or(and(shift_group, low_pair), and(and_or_group, not(o0))),
            both_of: and_or_group,
            pass: and(upper_pair, o1),
            complement_pass: not(o0),
        }
    }
}

/// The result of operation `operation` (its low four bits), computed by gates
/// with the ripple adder.
pub fn gate_alu(operation: u8, a: u32, b: u32, carry: bool) -> AluResult {
    gate_alu_around(ripple_add::<32>, operation, a, b, carry)
}

/// The same around any adder (CR 8: either may sit in the gate machine), at the
/// adder's width: 1 to 32 bits.
pub fn gate_alu_around<const N: usize>(
    adder: impl Fn(&Bits<N>, &Bits<N>, bool) -> (Bits<N>, bool),
    operation: u8,
    a: u32,
    b: u32,
    carry: bool,
) -> AluResult {
    let a = bits(a);
    let b = bits(b);
    let top = N - 1;
    let control = Control::decode(operation, a[top], carry);

    let x = a.map(|bit| xor(bit, control.complement_a));
    let y = b.map(|bit| or(and(bit, control.use_b), control.ones));
    let (sum, carry_out) = adder(&x, &y, control.carry_in);
    let result = choose_result(&control, &a, &b, &sum);

    let carry_into_top = xor(sum[top], xor(x[top], y[top]));
    let any = result.iter().fold(false, |any, &bit| or(any, bit));
    AluResult {
        word: word(&result),
        flags: Flags {
            carry: or(
                and(control.adder, xor(carry_out, control.borrow)),
                and(control.halve, a[0]),
            ),
            overflow: and(control.adder, xor(carry_out, carry_into_top)),
            negative: result[top],
            zero: not(any),
        },
    }
}

/// The output selectors; exactly one source, or both of 12's, is let through.
fn choose_result<const N: usize>(
    control: &Control,
    a: &Bits<N>,
    b: &Bits<N>,
    sum: &Bits<N>,
) -> Bits<N> {
    let mut halved = [control.top; N];
    halved[..N - 1].copy_from_slice(&a[1..]);
    let mut result = [false; N];
    for i in 0..N {
        let arithmetic = or(and(control.adder, sum[i]), and(control.halve, halved[i]));
        let logic = or(
            and(control.one_of, xor(a[i], b[i])),
            and(control.both_of, and(a[i], b[i])),
        );
        let passed = and(control.pass, xor(a[i], control.complement_pass));
        result[i] = or(arithmetic, or(logic, passed));
    }
    result
}

/// The bits of a word, lowest first.
fn bits<const N: usize>(word: u32) -> Bits<N> {
    std::array::from_fn(|i| word >> i & 1 == 1)
}

/// The inverse of [`bits`].
fn word<const N: usize>(bits: &Bits<N>) -> u32 {
    let places = bits.iter().enumerate();
    places.fold(0, |word, (i, &bit)| word | u32::from(bit) << i)
}
