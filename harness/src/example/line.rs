//! The line of three files, of which the middle one is undone (CR 1).

use super::{lines, load_with_version};
use reference::image::{self, ReadResult};
use reference::{traverse, File, Machine, TraverseAnswer, TraverseResult};
use std::ops::Range;

const FILE_COUNT: usize = 0x0B;
const PROFILE: Range<usize> = 0x0C..0x0F;

/// Places of a journal: two for each of the memory's 22 words, and too few for the files
/// under rule 2, which share them.
const ENOUGH: usize = 44;
const SHORT: usize = 17;

/// A file with the words that it lays.
pub type FileWords = (File, Vec<u32>);

/// The files of a text: on each line hexadecimal numbers, the place, the number of words,
/// the entry, the instruction count, and then the words.
pub fn parse_files(text: &str) -> Vec<FileWords> {
    text.lines().map(parse_file).collect()
}

fn parse_file(line: &str) -> FileWords {
    let number = |digits| u32::from_str_radix(digits, 16).expect("hexadecimal digits");
    let numbers: Vec<u32> = line.split_whitespace().map(number).collect();
    let file = File {
        place: numbers[0],
        words: numbers[1],
        entry: numbers[2],
        count: numbers[3],
    };
    (file, numbers[4..].to_vec())
}

/// The image with its version, the traverse under both rules, what they leave of the
/// profile, and a version that there is not.
pub fn traversed(image: &[u8], files: &[FileWords]) -> String {
    let (memory, loaded) = load_with_version(image);
    let start = Start {
        memory: &memory,
        machine: loaded.machine,
    };
    let [first, second] = [1, 2].map(|version| start.traverse(files, version, ENOUGH));
    let short = start.traverse(files, 2, SHORT);
    assert!(short.memory == memory && short.result.machine == loaded.machine);
    let refused = start.traverse(files, 3, ENOUGH).result.answer;
    let TraverseAnswer::Refused(refusal) = refused else {
        panic!("version 3 is refused");
    };
    let alone = start.traverse(&[files[0].clone(), files[2].clone()], 1, ENOUGH);
    let as_alone = alone.memory == first.memory && alone.result.machine == first.result.machine;
    let as_before = second.memory == memory && second.result.machine == loaded.machine;
    let before = lines([
        format!("line.image: {} words", memory.len()),
        format!("version {}", loaded.version),
        written_again(&loaded, &memory),
        format!("rule 1: {}", traverse_line(&first.result)),
        format!("rule 2: {}", traverse_line(&second.result)),
        format!("rule 2, {SHORT} places: {}", traverse_line(&short.result)),
    ]);
    let after = lines([
        format!("rule 1 as files 0 and 2 alone: {}", yes_or_no(as_alone)),
        format!("rule 2 as before: {}", yes_or_no(as_before)),
        format!("version 3: refused {refusal}"),
    ]);
    before + &profile(&first.memory, &second.memory) + &after
}

/// As an image of the other version, which is read again.
fn written_again(loaded: &ReadResult, memory: &[u32]) -> String {
    let bytes = image::to_bytes(&loaded.machine, memory, 1).expect("a good version");
    let (words, again) = load_with_version(&bytes);
    assert!(words == memory && again.machine == loaded.machine);
    format!(
        "written as version 1: {} bytes, read again as version {}",
        bytes.len(),
        again.version
    )
}

/// What each traverse starts from.
struct Start<'a> {
    memory: &'a [u32],
    machine: Machine,
}

/// What a traverse returns and leaves in memory.
struct Left {
    result: TraverseResult,
    memory: Vec<u32>,
}

impl Start<'_> {
    /// With a journal of so many places.
    fn traverse(&self, files: &[FileWords], version: u32, places: usize) -> Left {
        let words: Vec<u32> = files.iter().flat_map(|(_, words)| words.clone()).collect();
        let files: Vec<File> = files.iter().map(|&(file, _)| file).collect();
        let (mut memory, mut journal) = (self.memory.to_vec(), vec![0; places]);
        let start = self.machine;
        let result = traverse(&mut memory, 0, &mut journal, &words, &files, start, version);
        Left { result, memory }
    }
}

fn traverse_line(result: &TraverseResult) -> String {
    let TraverseResult { ran, pairs, .. } = result;
    let ending = match result.answer {
        TraverseAnswer::Marked(undone) => format!("undone {undone:016X}"),
        TraverseAnswer::TakenBack(file) => format!("undone in file {file}"),
        TraverseAnswer::JournalFull(file) => format!("journal full in file {file}"),
        answer => panic!("{answer:?}"),
    };
    format!("{ending}, {ran} instructions, {pairs} pairs")
}

/// Each file's point, and how many files were stacked, under rule 1 and rule 2.
fn profile(first: &[u32], second: &[u32]) -> String {
    let points = PROFILE.enumerate().map(|(number, point)| {
        let [first, second] = [first[point], second[point]];
        format!("{number} {first:08X} {second:08X}\n")
    });
    let points: String = points.collect();
    let [first, second] = [first[FILE_COUNT], second[FILE_COUNT]];
    format!("profile, file by file: rule 1, rule 2\n{points}files stacked {first} {second}\n")
}

fn yes_or_no(yes: bool) -> &'static str {
    if yes {
        "yes"
    } else {
        "no"
    }
}
