//! Writing and reading images.

use crate::machine::{Flags, Machine};
use crate::refusal::{check_memory, check_version, Refusal, MOST_WORDS};

/// Words in a full tag-05 field.
pub(crate) const WORDS_PER_FIELD: usize = 1_024;

const TAG_VERSION: u8 = 0x01;
const TAG_REGISTERS: u8 = 0x02;
const TAG_FLAGS: u8 = 0x03;
const TAG_COUNT: u8 = 0x04;
const TAG_WORDS: u8 = 0x05;
const TAG_END: u8 = 0xFF;

/// Bytes of the image of a memory of `words` words.
pub fn image_size(words: usize) -> usize {
    56 + 4 * words + 3 * words.div_ceil(WORDS_PER_FIELD)
}

/// Writes the image of this version, 1 or 2 (CR 1), at the head of `output` and returns
/// its size.
pub fn write(
    machine: &Machine,
    memory: &[u32],
    version: u32,
    output: &mut [u8],
) -> Result<usize, Refusal> {
    check_memory(memory.len())?;
    let size = image_size(memory.len());
    if output.len() < size {
        return Err(Refusal::ShortOutput);
    }
    check_version(version)?;
    let mut writer = Writer { output, at: 0 };
    writer.field(TAG_VERSION, 1, [version as u8]);
    writer.field(TAG_REGISTERS, 32, little_endian(&machine.registers));
    writer.field(TAG_FLAGS, 4, machine.flags.to_array().map(u8::from));
    writer.field(TAG_COUNT, 4, (memory.len() as u32).to_le_bytes());
    for words in memory.chunks(WORDS_PER_FIELD) {
        writer.field(TAG_WORDS, 4 * words.len(), little_endian(words));
    }
    writer.field(TAG_END, 0, []);
    Ok(size)
}

/// [`write`] into a buffer of just the right size.
pub fn to_bytes(machine: &Machine, memory: &[u32], version: u32) -> Result<Vec<u8>, Refusal> {
    check_memory(memory.len())?;
    let mut output = vec![0; image_size(memory.len())];
    write(machine, memory, version, &mut output)?;
    Ok(output)
}

fn little_endian(words: &[u32]) -> impl Iterator<Item = u8> + '_ {
    words.iter().flat_map(|word| word.to_le_bytes())
}

struct Writer<'a> {
    output: &'a mut [u8],
    at: usize,
}

impl Writer<'_> {
    /// `length` is at most 4,096 and so fits the two bytes.
    fn field(&mut self, tag: u8, length: usize, value: impl IntoIterator<Item = u8>) {
        let [low, high] = (length as u16).to_le_bytes();
        for byte in [tag, low, high].into_iter().chain(value) {
            self.output[self.at] = byte;
            self.at += 1;
        }
    }
}

/// What an image held; all 0 and false if it was refused.
#[derive(Clone, Copy, Debug, PartialEq, Eq)]
pub struct ReadResult {
    pub answer: Result<(), Refusal>,
    pub machine: Machine,
    /// M, the words put at the head of the lent memory.
    pub words: u32,
    /// 1 or 2.
    pub version: u32,
}

/// Loads an image. A refused one leaves `memory` as it was.
pub fn read(image: &[u8], memory: &mut [u32]) -> ReadResult {
    match parse(image, memory.len()) {
        Ok(contents) => {
            contents.copy_words(memory);
            ReadResult {
                answer: Ok(()),
                machine: contents.machine,
                words: contents.words as u32,
                version: contents.version,
            }
        }
        Err(refusal) => ReadResult {
            answer: Err(refusal),
            machine: Machine::default(),
            words: 0,
            version: 0,
        },
    }
}

/// A whole image found good, its words still in their fields.
struct Contents<'a> {
    version: u32,
    machine: Machine,
    words: usize,
    /// From the first tag-05 field on.
    fields: &'a [u8],
}

impl Contents<'_> {
    fn copy_words(&self, memory: &mut [u32]) {
        let fields = self.fields.chunks(3 + 4 * WORDS_PER_FIELD);
        for (field, cells) in fields.zip(memory[..self.words].chunks_mut(WORDS_PER_FIELD)) {
            for (cell, bytes) in cells.iter_mut().zip(field[3..].chunks_exact(4)) {
                *cell = word(bytes);
            }
        }
    }
}

/// Checks the whole image before anything is changed.
fn parse(image: &[u8], lent: usize) -> Result<Contents<'_>, Refusal> {
    let mut reader = Reader { rest: image };
    let version = u32::from(reader.field(TAG_VERSION, 1)?[0]);
    check_version(version)?;
    let machine = Machine {
        registers: registers(reader.field(TAG_REGISTERS, 32)?),
        flags: flags(reader.field(TAG_FLAGS, 4)?)?,
    };
    let words = word_count(reader.field(TAG_COUNT, 4)?, lent)?;
    let fields = reader.rest;
    reader.skip_words(words)?;
    reader.field(TAG_END, 0)?;
    if !reader.rest.is_empty() {
        return Err(Refusal::TrailingBytes);
    }
    Ok(Contents {
        version,
        machine,
        words,
        fields,
    })
}

struct Reader<'a> {
    rest: &'a [u8],
}

impl<'a> Reader<'a> {
    /// The value of the field that is due, checked up to its own content.
    fn field(&mut self, tag: u8, length: usize) -> Result<&'a [u8], Refusal> {
        let Some((header, rest)) = self.rest.split_at_checked(3) else {
            return Err(Refusal::CutImage);
        };
        if header[0] != tag {
            return Err(Refusal::WrongTag);
        }
        if usize::from(u16::from_le_bytes([header[1], header[2]])) != length {
            return Err(Refusal::WrongLength);
        }
        let Some((value, rest)) = rest.split_at_checked(length) else {
            return Err(Refusal::CutImage);
        };
        self.rest = rest;
        Ok(value)
    }

    /// Checks the fields of so many words; their values can be anything.
    fn skip_words(&mut self, words: usize) -> Result<(), Refusal> {
        let mut due = words;
        while due > 0 {
            let here = due.min(WORDS_PER_FIELD);
            self.field(TAG_WORDS, 4 * here)?;
            due -= here;
        }
        Ok(())
    }
}

fn registers(value: &[u8]) -> [u32; 8] {
    std::array::from_fn(|i| word(&value[4 * i..4 * i + 4]))
}

fn flags(value: &[u8]) -> Result<Flags, Refusal> {
    if value.iter().any(|&byte| byte > 1) {
        return Err(Refusal::BadFlag);
    }
    let flag = |i: usize| value[i] == 1;
    Ok(Flags::from_array([flag(0), flag(1), flag(2), flag(3)]))
}

fn word_count(value: &[u8], lent: usize) -> Result<usize, Refusal> {
    let words = word(value) as usize;
    if words == 0 || words > MOST_WORDS {
        return Err(Refusal::BadWordCount);
    }
    if words > lent {
        return Err(Refusal::ShortMemory);
    }
    Ok(words)
}

/// The word in four little-endian bytes.
fn word(bytes: &[u8]) -> u32 {
    bytes
        .iter()
        .rev()
        .fold(0, |word, &byte| word << 8 | u32::from(byte))
}
