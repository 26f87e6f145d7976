//! The arithmetic unit around each adder: cases, and what the program must print.

use reference::adders::{halves_add, ripple_add};
use reference::alu::AluResult;
use reference::gate_alu::gate_alu_around;
use reference::generate::pair::pair;
use reference::rng::Rng;
use reference::vectors::{vectors, Vector};

const SEED: u64 = 850_208;
const RANDOM_PAIRS: usize = 20_000;

/// What the program adds to its word before each operation of a sequence.
const STRIDE: u32 = 2_654_435_769;

/// An arithmetic unit on an operation, a, b and the carry.
pub type Unit = fn(u8, u32, u32, bool) -> AluResult;

#[derive(Clone, Copy)]
pub struct Adder {
    /// The program's number for it.
    pub number: u32,
    /// The reference's unit around it.
    pub unit: Unit,
}

pub const RIPPLE: Adder = Adder {
    number: 0,
    unit: |operation, a, b, carry| gate_alu_around(ripple_add::<32>, operation, a, b, carry),
};

pub const HALVES: Adder = Adder {
    number: 1,
    unit: |operation, a, b, carry| gate_alu_around(halves_add::<32>, operation, a, b, carry),
};

pub enum Case {
    /// One operation, with each adder.
    Operation(u8, u32, u32, bool),
    /// So many operations, one after the other, with one of them.
    Sequence(Adder, u32),
}

/// The 1,600 outside vectors, in which every operation comes, and two sequences.
pub fn kept_cases() -> Vec<Case> {
    let case = |v: Vector| Case::Operation(v.operation, v.a, v.b, v.carry_in);
    let mut cases: Vec<Case> = vectors().into_iter().map(case).collect();
    cases.extend([RIPPLE, HALVES].map(|adder| Case::Sequence(adder, 1_000)));
    cases
}

/// Sums (CR 8): all pairs of 8 bits and random ones of 16 and 32.
pub fn adder_cases() -> Vec<Case> {
    let mut rng = Rng::new(SEED);
    let mut cases = byte_pairs();
    cases.extend(random_pairs(&mut rng, 0xFFFF));
    cases.extend(random_pairs(&mut rng, u32::MAX));
    cases
}

/// All pairs of 8 bits, which hold those of 1, 2 and 4: in the unit's lowest byte,
/// where the places above are 0 and the next bit of the sum is the carry out, and in
/// its top byte, where the places below pass the carry on and C is the carry out.
fn byte_pairs() -> Vec<Case> {
    let pairs = (0..256).flat_map(|a| (0..256).map(move |b| (a, b)));
    let placed = pairs.flat_map(|(a, b)| [(a, b), (a << 24 | 0x00FF_FFFF, b << 24)]);
    placed.flat_map(sums).collect()
}

/// Random pairs of the bits of `mask`, the lowest ones.
fn random_pairs(rng: &mut Rng, mask: u32) -> Vec<Case> {
    let pairs = (0..RANDOM_PAIRS).map(|_| pair(rng));
    pairs
        .flat_map(|(a, b)| sums((a & mask, b & mask)))
        .collect()
}

/// Operation 2 adds a, b and the carry.
fn sums((a, b): (u32, u32)) -> [Case; 2] {
    [false, true].map(|carry| Case::Operation(2, a, b, carry))
}

/// The words of the program's input, as bytes.
pub fn input(cases: &[Case]) -> Vec<u8> {
    let words = cases.iter().flat_map(|case| match *case {
        Case::Operation(operation, a, b, carry) => vec![2, operation.into(), a, b, carry.into()],
        Case::Sequence(Adder { number, .. }, count) => vec![3, number, count],
    });
    words.flat_map(u32::to_le_bytes).collect()
}

pub fn output(cases: &[Case]) -> String {
    cases.iter().map(line).collect()
}

fn line(case: &Case) -> String {
    match *case {
        Case::Operation(operation, a, b, carry) => {
            let text = |adder: Adder| text(&(adder.unit)(operation, a, b, carry));
            format!("unit {} {}\n", text(RIPPLE), text(HALVES))
        }
        Case::Sequence(Adder { unit, .. }, count) => {
            format!("ran {}\n", text(&operate(unit, count)))
        }
    }
}

pub fn text(result: &AluResult) -> String {
    format!("{:08X} {}", result.word, result.flags.digits())
}

/// A sequence: the sixteen operations over and over, each on a new word, the last
/// result and the last carry; with none, 0 and no flag.
pub fn operate(unit: impl Fn(u8, u32, u32, bool) -> AluResult, count: u32) -> AluResult {
    let mut word = 0_u32;
    let mut last = AluResult::default();
    for i in 0..count {
        word = word.wrapping_add(STRIDE);
        last = unit((i % 16) as u8, word, last.word, last.flags.carry);
    }
    last
}
