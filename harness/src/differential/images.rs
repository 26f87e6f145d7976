//! Images, most of them damaged: read, and written again where they are good.

use super::outcome::Outcome;
use super::{expected, proved, run_case, same, Check};
use crate::text::{hex_bytes, hex_words};
use reference::generate::image::{any_image, ImageCase};
use reference::generate::program::any_program;
use reference::image;
use reference::rng::Rng;
use reference::Machine;

/// Of an image; and numbers that are no version, some of which are one in 8 or 16 bits.
pub const VERSIONS: [u32; 2] = [1, 2];
pub const NO_VERSIONS: [u32; 8] = [0, 3, 255, 257, 258, 65_537, 1 << 31 | 2, u32::MAX];

/// How many images were read and how many of them were refused.
#[derive(Default)]
pub struct Tally {
    pub read: u64,
    pub refused: u64,
}

pub fn check(rng: &mut Rng, tally: &mut Tally) -> Check {
    let ImageCase { bytes, lent, .. } = any_image(rng);
    check_image(rng, &bytes, lent, tally)
}

pub fn check_image(rng: &mut Rng, bytes: &[u8], lent: usize, tally: &mut Tally) -> Check {
    tally.read += 1;
    if check_read(rng, bytes, lent)? {
        return check_written(rng, bytes);
    }
    tally.refused += 1;
    Ok(())
}

/// Memories that fill their last field, all but fill it, or begin one more: read
/// into as many words, more and fewer, and written again. Returns how many.
pub fn check_lengths(rng: &mut Rng) -> Result<usize, String> {
    const LENGTHS: [usize; 9] = [1, 2, 1_023, 1_024, 1_025, 2_047, 2_048, 2_049, 4_096];
    for words in LENGTHS {
        let memory = any_words(rng, words);
        let start = any_program(rng).start;
        for version in VERSIONS {
            let bytes =
                image::to_bytes(&start, &memory, version).expect("some words make an image");
            check_length(rng, &bytes, words)?;
        }
    }
    Ok(LENGTHS.len() * VERSIONS.len())
}

fn check_length(rng: &mut Rng, bytes: &[u8], words: usize) -> Check {
    for lent in [words, words + 1, words - 1] {
        check_read(rng, bytes, lent)?;
    }
    check_written(rng, bytes)
}

fn any_words(rng: &mut Rng, count: usize) -> Vec<u32> {
    (0..count).map(|_| rng.word()).collect()
}

/// Into a memory of so many words. Whether the image is accepted.
fn check_read(rng: &mut Rng, bytes: &[u8], lent: usize) -> Result<bool, String> {
    let memory = any_words(rng, lent);
    let proved = proved::image_read(bytes, &memory);
    let expected = expected::image_read(bytes, &memory);
    same("image read", &proved, &expected, || {
        let image = hex_bytes(bytes);
        format!("image {image}\nlent{}\n", hex_words(&memory))
    })?;
    Ok(expected.carried_out())
}

/// What the reader accepts is just what the writer makes of it, also into a
/// longer output; a shorter one is refused. Then as another version.
fn check_written(rng: &mut Rng, bytes: &[u8]) -> Check {
    let mut memory = vec![0; bytes.len() / 4];
    let loaded = image::read(bytes, &mut memory);
    memory.truncate(loaded.words as usize);
    let (machine, version) = (loaded.machine, loaded.version);
    let size = bytes.len();
    for room in [size, size + rng.between(1, 9), size - 1, rng.below(size)] {
        let proved = check_write(&memory, &machine, version, room)?;
        if room == size {
            let written = Outcome {
                output: bytes.to_vec(),
                ..proved.clone()
            };
            let case = || format!("image {}\n", hex_bytes(bytes));
            same("image written again", &proved, &written, case)?;
        }
    }
    let another = [3 - version, rng.pick(&NO_VERSIONS)];
    for version in another {
        check_write(&memory, &machine, version, size - rng.below(2))?;
    }
    Ok(())
}

/// Into an output of so many bytes; returns the library's outcome.
pub fn check_write(
    memory: &[u32],
    machine: &Machine,
    version: u32,
    room: usize,
) -> Result<Outcome, String> {
    let proved = proved::image_write(memory, machine, version, room);
    let expected = expected::image_write(memory, machine, version, room);
    same("image write", &proved, &expected, || {
        let far = format_args!("version {version} room {room} bytes");
        run_case(memory, 0, machine, &[], far)
    })?;
    Ok(proved)
}
