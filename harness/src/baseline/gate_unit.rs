//! The arithmetic unit out of gates on single bits. It has the ripple adder in the
//! gate machine, and may have the adder by halves.

use reference::adders::halves_add;

fn not(x: bool) -> bool {
    !x
}

fn and(x: bool, y: bool) -> bool {
    x & y
}

fn or(x: bool, y: bool) -> bool {
    x | y
}

fn xor(x: bool, y: bool) -> bool {
    x ^ y
}

/// The lines that the four bits of the operation decode to.
struct Lines {
    adds: bool,
    complement_a: bool,
    use_b: bool,
    /// Ones in place of b.
    ones: bool,
    carry_in: bool,
    borrow: bool,
    shifts: bool,
    shift_carry: bool,
    shift_top: bool,
    xor: bool,
    or: bool,
    and: bool,
    complement: bool,
    pass: bool,
}

impl Lines {
    fn decode(operation: u32, carry: bool) -> Lines {
        let bits: [bool; 4] = std::array::from_fn(|i| operation >> i & 1 != 0);
        let line = |number: u32| {
            let wire = |i: usize| {
                if number >> i & 1 == 1 {
                    bits[i]
                } else {
                    not(bits[i])
                }
            };
            and(and(wire(0), wire(1)), and(wire(2), wire(3)))
        };
        let use_b = or(or(line(2), line(3)), or(line(6), line(7)));
        let borrow = or(or(line(4), line(5)), or(line(6), line(7)));
        let adds = or(line(1), or(use_b, borrow));
        let shifts = or(line(8), or(line(9), line(10)));
        let logic = or(or(line(11), line(12)), or(line(13), line(14)));
        let with_carry = or(and(line(2), carry), and(line(6), not(carry)));
        Lines {
            adds,
            complement_a: or(line(4), or(line(6), line(7))),
            use_b,
            ones: line(5),
            carry_in: or(or(line(1), or(line(4), line(7))), with_carry),
            borrow,
            shifts,
            shift_carry: and(line(8), carry),
            shift_top: line(9),
            xor: line(11),
            or: line(12),
            and: line(13),
            complement: line(14),
            pass: not(or(or(adds, shifts), logic)),
        }
    }
}

pub fn gate_unit(operation: u32, a: u32, b: u32, carry: bool) -> Answer {
    unit(add, operation, a, b, carry)
}

pub fn gate_unit_by_halves(operation: u32, a: u32, b: u32, carry: bool) -> Answer {
    unit(add_by_halves, operation, a, b, carry)
}

/// Result, carry, overflow.
pub type Answer = (u32, bool, bool);

/// Sum, carry out, and the carry into the top bit.
type Sum = ([bool; 32], bool, bool);

#[inline]
fn unit(
    add: impl Fn(&Lines, &[bool; 32], &[bool; 32]) -> Sum,
    operation: u32,
    a: u32,
    b: u32,
    carry: bool,
) -> Answer {
    let lines = Lines::decode(operation, carry);
    let (a, b) = (unpack(a), unpack(b));
    let (sum, carry_out, carry_in_top) = add(&lines, &a, &b);
    let top = or(lines.shift_carry, and(lines.shift_top, a[31]));
    let mut result = [false; 32];
    for i in 0..32 {
        let halved = if i < 31 { a[i + 1] } else { top };
        let arithmetic = or(and(sum[i], lines.adds), and(halved, lines.shifts));
        let either = or(
            and(xor(a[i], b[i]), lines.xor),
            and(or(a[i], b[i]), lines.or),
        );
        let other = or(
            and(and(a[i], b[i]), lines.and),
            and(not(a[i]), lines.complement),
        );
        result[i] = or(or(arithmetic, either), or(other, and(a[i], lines.pass)));
    }
    let carried = and(lines.adds, xor(carry_out, lines.borrow));
    (
        pack(&result),
        or(carried, and(lines.shifts, a[0])),
        and(lines.adds, xor(carry_out, carry_in_top)),
    )
}

/// The ripple adder.
fn add(lines: &Lines, a: &[bool; 32], b: &[bool; 32]) -> Sum {
    let mut sum = [false; 32];
    let mut carry = lines.carry_in;
    let mut before = carry;
    for i in 0..32 {
        let x = xor(a[i], lines.complement_a);
        let y = or(and(b[i], lines.use_b), lines.ones);
        let half = xor(x, y);
        before = carry;
        sum[i] = xor(half, carry);
        carry = or(and(x, y), and(half, carry));
    }
    (sum, carry, before)
}

/// The reference's adder by halves, on this unit's rows.
fn add_by_halves(lines: &Lines, a: &[bool; 32], b: &[bool; 32]) -> Sum {
    let x = a.map(|bit| xor(bit, lines.complement_a));
    let y = b.map(|bit| or(and(bit, lines.use_b), lines.ones));
    let (sum, carry) = halves_add(&x, &y, lines.carry_in);
    (sum, carry, xor(sum[31], xor(x[31], y[31])))
}

fn unpack(word: u32) -> [bool; 32] {
    std::array::from_fn(|i| word >> i & 1 != 0)
}

fn pack(bits: &[bool; 32]) -> u32 {
    let places = bits.iter().enumerate();
    places.fold(0, |word, (i, &bit)| word | u32::from(bit) << i)
}
