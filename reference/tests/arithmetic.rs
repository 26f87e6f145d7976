//! Both arithmetic units: against outside vectors and against each other.

mod common;

use common::machine;
use reference::adders::{halves_add, ripple_add, Bits};
use reference::alu::alu;
use reference::gate_alu::{gate_alu, gate_alu_around};
use reference::generate::pair::pair;
use reference::rng::Rng;
use reference::vectors::vectors;
use reference::{run, Answer};

#[test]
fn vectors_of_the_fm9001() {
    let vectors = vectors();
    assert_eq!(vectors.len(), 1_600);
    for v in vectors {
        for result in [
            alu(v.operation, v.a, v.b, v.carry_in),
            gate_alu(v.operation, v.a, v.b, v.carry_in),
            gate_alu_around(halves_add::<32>, v.operation, v.a, v.b, v.carry_in),
        ] {
            assert_eq!(result.word, v.result, "{} {:X} {:X}", v.operation, v.a, v.b);
            assert_eq!(result.flags.carry, v.carry);
            assert_eq!(result.flags.overflow, v.overflow);
            assert_eq!(result.flags.negative, v.result >= 0x8000_0000);
            assert_eq!(result.flags.zero, v.result == 0);
        }
    }
}

/// The vectors as instructions on r1 and r2 with all flags permitted.
#[test]
fn vectors_through_the_interpreter() {
    for v in vectors() {
        let word = u32::from(v.operation) << 16 | 0x3C41;
        let digits = if v.carry_in { "1000" } else { "0000" };
        let start = machine(&[(1, v.a), (2, v.b)], digits);
        let result = run(&mut [word], 0, &[], 0, start, 1);
        assert_eq!(result.answer, Answer::Finished);
        assert_eq!(result.machine.registers[2], v.result);
        assert_eq!(result.machine.flags.carry, v.carry);
        assert_eq!(result.machine.flags.overflow, v.overflow);
    }
}

fn check_units_agree(operation: u8, a: u32, b: u32) {
    for carry in [false, true] {
        let words = alu(operation, a, b, carry);
        for gates in [
            gate_alu(operation, a, b, carry),
            gate_alu_around(halves_add::<32>, operation, a, b, carry),
        ] {
            assert_eq!(gates, words, "{operation} {a:X} {b:X} {carry}");
        }
    }
}

#[test]
fn gates_give_the_defined_result() {
    let corners = [0, 1, 2, 0x7FFF_FFFE, 0x7FFF_FFFF, 0x8000_0000, 0x8000_0001];
    let corners = corners.into_iter().flat_map(|word| [word, !word]);
    let corners: Vec<u32> = corners.collect();
    for operation in 0..16 {
        for &a in &corners {
            for &b in &corners {
                check_units_agree(operation, a, b);
            }
        }
    }
    let mut rng = Rng::new(1);
    for _ in 0..300_000 {
        let operation = rng.below(16) as u8;
        let (a, b) = (rng.word(), rng.word());
        check_units_agree(operation, a, b);
    }
}

#[test]
fn only_the_low_four_bits_of_the_operation_count() {
    let mut rng = Rng::new(2);
    for operation in 0..=255 {
        let (a, b, carry) = (rng.word(), rng.word(), rng.flag());
        let low = alu(operation & 15, a, b, carry);
        assert_eq!(alu(operation, a, b, carry), low);
        assert_eq!(gate_alu(operation, a, b, carry), low);
    }
}

fn bits<const N: usize>(number: u64) -> Bits<N> {
    std::array::from_fn(|i| number >> i & 1 == 1)
}

/// Sum and carry out, by numbers.
fn added<const N: usize>(x: u64, y: u64, carry: bool) -> (Bits<N>, bool) {
    let total = x + y + u64::from(carry);
    (bits(total), total >> N == 1)
}

/// Both adders of `N` bits give what numbers give, so they give the same. A width that
/// is no power of two has the ripple adder alone.
fn check_adders<const N: usize>(x: u64, y: u64) {
    for carry in [false, true] {
        let due = added(x, y, carry);
        let (x, y) = (bits(x), bits(y));
        assert_eq!(ripple_add::<N>(&x, &y, carry), due, "{x:?} {y:?} {carry}");
        if N.is_power_of_two() {
            assert_eq!(halves_add::<N>(&x, &y, carry), due, "{x:?} {y:?} {carry}");
        }
    }
}

fn check_all_pairs<const N: usize>() {
    for x in 0..1 << N {
        for y in 0..1 << N {
            check_adders::<N>(x, y);
        }
    }
}

/// CR 8: on all pairs of up to 8 bits.
#[test]
fn adders_of_small_widths() {
    check_all_pairs::<0>();
    check_all_pairs::<1>();
    check_all_pairs::<2>();
    check_all_pairs::<3>();
    check_all_pairs::<4>();
    check_all_pairs::<5>();
    check_all_pairs::<8>();
}

/// CR 8: on random pairs at 16 and 32 bits.
#[test]
fn adders_of_16_and_32_bits() {
    let mut rng = Rng::new(8);
    for _ in 0..100_000 {
        let (x, y) = pair(&mut rng);
        check_adders::<16>(u64::from(x & 0xFFFF), u64::from(y & 0xFFFF));
        check_adders::<32>(u64::from(x), u64::from(y));
    }
}

#[test]
#[should_panic(expected = "a width of 12 is no power of two")]
fn the_adder_by_halves_takes_powers_of_two() {
    halves_add::<12>(&[false; 12], &[false; 12], false);
}
