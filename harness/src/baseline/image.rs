//! Images in Rust, written for speed: whole fields at once.

use fm8502::library::DONE;

const WORDS_PER_FIELD: usize = 1_024;
/// Where the version, the registers, the flags, the word count and the first words stand.
const VERSION: usize = 3;
const REGISTERS: usize = 7;
const FLAGS: usize = 42;
const COUNT: usize = 49;
const WORDS: usize = 53;

pub fn image_write(
    memory: &[u32],
    machine: &[u32],
    version: u32,
    out: &mut [u8],
    result: &mut [u64],
) -> u32 {
    out[..REGISTERS].copy_from_slice(&[1, 1, 0, version as u8, 2, 32, 0]);
    put_words(&machine[..8], &mut out[REGISTERS..]);
    out[REGISTERS + 32..FLAGS].copy_from_slice(&[3, 4, 0]);
    put_flags(&machine[8..], &mut out[FLAGS..]);
    out[FLAGS + 4..COUNT].copy_from_slice(&[4, 4, 0]);
    put_words(&[memory.len() as u32], &mut out[COUNT..]);
    let end = put_fields(memory, out);
    out[end..end + 3].copy_from_slice(&[0xFF, 0, 0]);
    result[0] = end as u64 + 3;
    DONE
}

fn put_flags(flags: &[u32], out: &mut [u8]) {
    for (byte, &flag) in out.iter_mut().zip(flags) {
        *byte = flag as u8;
    }
}

/// Returns the place after the fields.
fn put_fields(memory: &[u32], out: &mut [u8]) -> usize {
    let mut at = WORDS;
    for words in memory.chunks(WORDS_PER_FIELD) {
        let [low, high] = (4 * words.len() as u16).to_le_bytes();
        out[at..at + 3].copy_from_slice(&[5, low, high]);
        put_words(words, &mut out[at + 3..]);
        at += 3 + 4 * words.len();
    }
    at
}

fn put_words(words: &[u32], out: &mut [u8]) {
    for (bytes, word) in out.chunks_exact_mut(4).zip(words) {
        bytes.copy_from_slice(&word.to_le_bytes());
    }
}

/// Checks the fields' headers before it loads; the bench lends good images only.
pub fn image_read(
    bytes: &[u8],
    memory: &mut [u32],
    machine: &mut [u32],
    result: &mut [u64],
) -> u32 {
    let mut count = [0];
    get_words(&bytes[COUNT..], &mut count);
    let words = count[0] as usize;
    check_headers(bytes, words);
    get_words(&bytes[REGISTERS..], &mut machine[..8]);
    get_flags(&bytes[FLAGS..], &mut machine[8..]);
    get_fields(&bytes[WORDS..], &mut memory[..words]);
    result.copy_from_slice(&[words as u64, u64::from(bytes[VERSION])]);
    DONE
}

fn check_headers(bytes: &[u8], words: usize) {
    assert_eq!(bytes[..VERSION], [1, 1, 0]);
    assert!(matches!(bytes[VERSION], 1 | 2));
    assert_eq!(bytes[VERSION + 1..REGISTERS], [2, 32, 0]);
    let mut at = WORDS;
    let mut due = words;
    while due > 0 {
        let here = due.min(WORDS_PER_FIELD);
        let [low, high] = (4 * here as u16).to_le_bytes();
        assert_eq!(bytes[at..at + 3], [5, low, high]);
        at += 3 + 4 * here;
        due -= here;
    }
    assert_eq!(bytes[at..], [0xFF, 0, 0]);
}

fn get_flags(bytes: &[u8], flags: &mut [u32]) {
    for (flag, &byte) in flags.iter_mut().zip(bytes) {
        *flag = u32::from(byte);
    }
}

fn get_fields(bytes: &[u8], memory: &mut [u32]) {
    let fields = bytes.chunks(3 + 4 * WORDS_PER_FIELD);
    for (field, words) in fields.zip(memory.chunks_mut(WORDS_PER_FIELD)) {
        get_words(&field[3..], words);
    }
}

fn get_words(bytes: &[u8], words: &mut [u32]) {
    for (word, bytes) in words.iter_mut().zip(bytes.chunks_exact(4)) {
        *word = u32::from_le_bytes([bytes[0], bytes[1], bytes[2], bytes[3]]);
    }
}
