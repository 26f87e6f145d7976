//! CR 13: what the sums mean.

use reference::adders::{halves_add, ripple_add, Bits};
use reference::alu::{alu, AluResult};
use reference::gate_alu::{gate_alu, gate_alu_around};
use reference::generate::pair::pair;
use reference::machine::Flags;
use reference::meaning::{Use, ENDS};
use reference::rng::Rng;
use reference::vectors::{vectors, Vector};

type Adder<const N: usize> = fn(&Bits<N>, &Bits<N>, bool) -> (Bits<N>, bool);

fn check(case: Use, answer: AluResult) {
    assert!(case.means(&answer), "{case}: {answer:X?}");
}

fn check_width<const N: usize>(adder: Adder<N>) {
    for a in 0..1 << N {
        for b in 0..1 << N {
            for case in Use::each(N as u32, a, b) {
                let answer = gate_alu_around(adder, case.operation, a, b, case.carry);
                check(case, answer);
            }
        }
    }
}

/// On all pairs of words of up to 6 bits, and with the other adder where there is one.
#[test]
fn gates_of_small_widths() {
    check_width::<1>(ripple_add);
    check_width::<2>(ripple_add);
    check_width::<3>(ripple_add);
    check_width::<4>(ripple_add);
    check_width::<5>(ripple_add);
    check_width::<6>(ripple_add);
    check_width::<1>(halves_add);
    check_width::<2>(halves_add);
    check_width::<4>(halves_add);
}

fn check_units(a: u32, b: u32) {
    for case in Use::each(32, a, b) {
        let Use {
            operation, carry, ..
        } = case;
        check(case, alu(operation, a, b, carry));
        check(case, gate_alu(operation, a, b, carry));
        let halves = gate_alu_around(halves_add::<32>, operation, a, b, carry);
        check(case, halves);
    }
}

/// The ends each with each, and random words.
#[test]
fn units_of_32_bits() {
    for a in ENDS {
        for b in ENDS {
            check_units(a, b);
        }
    }
    let mut rng = Rng::new(13);
    for _ in 0..100_000 {
        let (a, b) = pair(&mut rng);
        check_units(a, b);
    }
}

/// The FM9001's own answers to 1 to 7 and 9 mean the same.
#[test]
fn outside_vectors() {
    let meant = |v: &Vector| matches!(v.operation, 1..=7 | 9);
    for v in vectors().into_iter().filter(meant) {
        let case = Use {
            width: 32,
            operation: v.operation,
            a: v.a,
            b: v.b,
            carry: v.carry_in,
        };
        check(case, AluResult::of(v.result, v.carry, v.overflow));
    }
}

/// Off by half as much, off without the flag, the flag with nothing off, rounded toward
/// zero.
#[test]
fn other_answers_are_told_apart() {
    let refused = |operation, a, b, word, cvnz: [bool; 4]| {
        let case = Use {
            width: 32,
            operation,
            a,
            b,
            carry: false,
        };
        let flags = Flags::from_array(cvnz);
        assert!(!case.means(&AluResult { word, flags }), "{case}");
    };
    let [none, carry, overflow] = [
        [false; 4],
        [true, false, false, false],
        [false, true, false, false],
    ];
    // 2^31 - 1 less -1 makes 2^31: off by half as much, and off without V.
    refused(7, u32::MAX, 0x7FFF_FFFF, 0, overflow);
    refused(7, u32::MAX, 0x7FFF_FFFF, 0x8000_0000, none);
    // V where nothing is off, and C where nothing is.
    refused(3, 1, 1, 2, overflow);
    refused(3, 1, 1, 2, carry);
    // 2^32 - 1 and 1 without C.
    refused(3, 1, u32::MAX, 0, none);
    // -3 halved toward zero is -1, and rounded down -2.
    refused(9, (-3_i32) as u32, 0, (-1_i32) as u32, carry);
}
