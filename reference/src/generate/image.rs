//! Images, most of them damaged.

use super::flags;
use crate::image::{self, WORDS_PER_FIELD};
use crate::machine::Machine;
use crate::rng::Rng;

/// What was done to an image the writer had produced.
#[derive(Clone, Copy, Debug, PartialEq, Eq)]
pub enum Damage {
    None,
    Truncated,
    Extended,
    Tag,
    Length,
    Version,
    FlagByte,
    WordCount,
    BitFlips,
    /// The image is whole, but less memory is lent than it needs.
    ShortMemory,
}

pub const DAMAGES: [Damage; 10] = [
    Damage::None,
    Damage::Truncated,
    Damage::Extended,
    Damage::Tag,
    Damage::Length,
    Damage::Version,
    Damage::FlagByte,
    Damage::WordCount,
    Damage::BitFlips,
    Damage::ShortMemory,
];

/// One call of the image reader.
#[derive(Clone, Debug, PartialEq, Eq)]
pub struct ImageCase {
    pub damage: Damage,
    pub bytes: Vec<u8>,
    /// Words of memory to lend.
    pub lent: usize,
}

/// Offsets that all images have in common.
const VERSION_AT: usize = 3;
const FLAGS_AT: usize = 42;
const COUNT_AT: usize = 49;
const FIRST_WORDS_FIELD_AT: usize = 53;
const WORDS_FIELD_SIZE: usize = 3 + 4 * WORDS_PER_FIELD;

pub fn any_image(rng: &mut Rng) -> ImageCase {
    let damage = rng.pick(&DAMAGES);
    image_case(rng, damage)
}

pub fn image_case(rng: &mut Rng, damage: Damage) -> ImageCase {
    let words = if rng.one_in(8) {
        rng.pick(&[1_023, 1_024, 1_025, 2_048, 2_049, 4_096, 4_097])
    } else {
        rng.between(1, 12)
    };
    let memory: Vec<u32> = (0..words).map(|_| rng.word()).collect();
    let version = rng.between(1, 2) as u32;
    let bytes = image::to_bytes(&machine(rng), &memory, version).expect("1 word or more");
    let mut case = ImageCase {
        damage,
        bytes,
        lent: words + rng.below(3),
    };
    apply(rng, &mut case, words);
    case
}

fn apply(rng: &mut Rng, case: &mut ImageCase, words: usize) {
    let size = case.bytes.len();
    match case.damage {
        Damage::None => {}
        Damage::Truncated => case.bytes.truncate(rng.below(size)),
        Damage::Extended => {
            let more = rng.between(1, 4);
            case.bytes.extend((0..more).map(|_| rng.word() as u8));
        }
        Damage::Tag => {
            let at = header(rng, words);
            case.bytes[at] = other_than(rng, case.bytes[at], &[0, 1, 2, 3, 4, 5, 0xFE, 0xFF]);
        }
        Damage::Length => {
            let at = header(rng, words) + rng.between(1, 2);
            let byte = case.bytes[at];
            let near = [byte.wrapping_sub(1), byte.wrapping_add(1), 0, 0x10, 0xFF];
            case.bytes[at] = other_than(rng, byte, &near);
        }
        Damage::Version => case.bytes[VERSION_AT] = other_version(rng),
        Damage::FlagByte => {
            let at = FLAGS_AT + rng.below(4);
            case.bytes[at] = rng.pick(&[2, 3, 0x80, 0xFF]);
        }
        Damage::WordCount => change_count(rng, case, words as u32),
        Damage::BitFlips => {
            for _ in 0..rng.between(1, 3) {
                // Headers are few in a long image, so aim at the front too.
                let within = if rng.flag() { size } else { size.min(60) };
                case.bytes[rng.below(within)] ^= 1 << rng.below(8);
            }
        }
        Damage::ShortMemory => case.lent = rng.below(words),
    }
}

fn change_count(rng: &mut Rng, case: &mut ImageCase, words: u32) {
    let count = rng.pick(&[
        0,
        words - 1,
        words + 1,
        words + 1_024,
        16_777_216,
        16_777_217,
        u32::MAX,
    ]);
    case.bytes[COUNT_AT..COUNT_AT + 4].copy_from_slice(&count.to_le_bytes());
    // Often lend enough, so that the fields that follow are looked at.
    if count < 10_000 && rng.flag() {
        case.lent = case.lent.max(count as usize);
    }
}

/// The offset of some field's header.
fn header(rng: &mut Rng, words: usize) -> usize {
    let fields = words.div_ceil(WORDS_PER_FIELD);
    let end = image::image_size(words) - 3;
    match rng.below(6) {
        0 => 0,
        1 => 4,
        2 => 39,
        3 => 46,
        4 => FIRST_WORDS_FIELD_AT + rng.below(fields) * WORDS_FIELD_SIZE,
        _ => end,
    }
}

/// One of `choices` or any byte, but not `byte`.
fn other_than(rng: &mut Rng, byte: u8, choices: &[u8]) -> u8 {
    let new = if rng.flag() {
        rng.pick(choices)
    } else {
        rng.word() as u8
    };
    if new == byte {
        byte ^ 0x40
    } else {
        new
    }
}

/// Neither 1 nor 2; every other time next to them.
fn other_version(rng: &mut Rng) -> u8 {
    match rng.below(4) {
        0 => 0,
        1 => 3,
        2 => rng.pick(&[0x81, 0x82, 0xFF]),
        _ => rng.between(3, 0xFF) as u8,
    }
}

fn machine(rng: &mut Rng) -> Machine {
    Machine {
        registers: [(); 8].map(|()| rng.word()),
        flags: flags(rng),
    }
}
