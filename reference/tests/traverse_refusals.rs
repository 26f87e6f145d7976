//! The reasons to turn a traverse down (CR 1), and which of several is given.

mod common;

use common::machine;
use reference::generate::program::any_program;
use reference::generate::traverse::{traverse_case, TraverseCase};
use reference::generate::traverse_faults::{spoil, Fault, FAULTS};
use reference::rng::Rng;
use reference::{traverse, File, Machine, TraverseAnswer};

const TOO_LONG: usize = 16_777_217;
const SENTINEL: u32 = 0x5A5A_5A5A;

fn start() -> Machine {
    machine(&[(0, 2), (5, 77)], "0101")
}

/// The number with which a call is turned down; what was lent must stay then.
fn refusal_on(
    memory: &mut [u32],
    bottom: u32,
    journal: &mut [u32],
    words: &[u32],
    files: &[File],
    version: u32,
) -> Option<u8> {
    let result = traverse(memory, bottom, journal, words, files, start(), version);
    let TraverseAnswer::Refused(refusal) = result.answer else {
        return None;
    };
    assert_eq!(result.machine, start());
    assert_eq!((result.ran, result.pairs), (0, 0));
    assert!(journal.iter().all(|&word| word == SENTINEL));
    Some(refusal.number())
}

/// On a memory of 8 words, with the words that the files want and under both versions.
fn refusal(bottom: u32, places: usize, files: &[File]) -> Option<u8> {
    let words: u64 = files.iter().map(|file| u64::from(file.words)).sum();
    let words = vec![9; words.min(70_000) as usize];
    let [first, second] = [1, 2].map(|version| {
        let (mut memory, mut journal) = ([0; 8], vec![SENTINEL; places]);
        let refusal = refusal_on(&mut memory, bottom, &mut journal, &words, files, version);
        assert!(refusal.is_none() || memory == [0; 8]);
        refusal
    });
    assert_eq!(first, second);
    first
}

fn file(place: u32, words: u32, count: u32) -> File {
    File {
        place,
        words,
        entry: 0,
        count,
    }
}

/// Each fault alone gives its number, and any set of them that of the first in order; so
/// all pairs are among them.
#[test]
fn every_set_of_faults() {
    let mut rng = Rng::new(113);
    for round in 0..30 {
        for set in 0..1 << FAULTS.len() {
            let program = any_program(&mut rng);
            let mut case = traverse_case(&mut rng, &program);
            let faults: Vec<Fault> = (0..FAULTS.len())
                .filter(|i| set >> i & 1 == 1)
                .map(|i| FAULTS[i])
                .collect();
            if !faults.is_empty() {
                spoil(&mut rng, &mut case, &faults);
            }
            let due = faults.first().map(|fault| fault.number());
            assert_eq!(refusal_of(&mut case), due, "round {round}: {faults:?}");
        }
    }
}

/// Of a generated case, whose memory must stay if it is refused.
fn refusal_of(case: &mut TraverseCase) -> Option<u8> {
    let lent = case.memory.clone();
    let refusal = refusal_on(
        &mut case.memory,
        case.bottom,
        &mut vec![SENTINEL; case.places],
        &case.words,
        &case.files,
        case.version,
    );
    assert!(refusal.is_none() || case.memory == lent);
    refusal
}

/// 2 after 1 and before all others; 21 after it; the longest memory to its end.
#[test]
fn the_longest_memory() {
    let mut long = vec![0; TOO_LONG];
    let bad = vec![file(u32::MAX, 1, u32::MAX); 65];
    let last = TOO_LONG as u32 - 1;
    let at_end = [file(last - 3, 3, 0)];
    let places = &mut [SENTINEL; 6][..];
    assert_eq!(refusal_on(&mut [], 1, &mut [], &[], &bad, 0), Some(1));
    assert_eq!(
        refusal_on(&mut long, u32::MAX, &mut [], &[], &bad, 0),
        Some(2)
    );
    assert_eq!(
        refusal_on(&mut long, 0, places, &[7; 3], &at_end, 1),
        Some(2)
    );
    let memory = &mut long[1..];
    assert_eq!(
        refusal_on(memory, last + 1, &mut [], &[], &bad, 0),
        Some(21)
    );
    let past = [file(last - 2, 3, 0)];
    assert_eq!(refusal_on(memory, 0, places, &[7; 3], &past, 1), Some(17));
    assert_eq!(
        refusal_on(memory, last - 2, places, &[7; 3], &at_end, 1),
        Some(17)
    );
    assert_eq!(
        refusal_on(memory, last - 3, places, &[7; 3], &at_end, 1),
        None
    );
    assert_eq!(long[TOO_LONG - 4..], [0, 7, 7, 7]);
}

/// Any number of instructions and any journal is taken (CR 11). The memory of zeros moves
/// r0 to itself and is left after 8 instructions.
#[test]
fn work_and_journal() {
    let lists: [&[File]; 6] = [
        &[file(0, 8, 65_528)],
        &[file(0, 8, 65_529)],
        &[file(0, 0, u32::MAX)],
        &[file(0, 8, u32::MAX), file(0, 8, u32::MAX)],
        &[file(0, 1, 0)],
        &[file(0, 0, u32::MAX); 64],
    ];
    for list in lists {
        for places in [0, 1, 2, 3, 15, 16, 17, 131_072] {
            assert_eq!(refusal(0, places, list), None, "{list:?}");
        }
    }
}

/// Sums that 32 bits would make small again, up to four times 2^32 - 1 and beyond: the
/// files' words are past the memory, and with more than 64 files it is their number.
#[test]
fn sums_do_not_go_round() {
    const TOP: u32 = u32::MAX;
    const HALF: u32 = 1 << 31;
    let lists: [&[File]; 8] = [
        &[file(0, TOP, 1)],
        &[file(1, TOP, 0)],
        &[file(0, TOP, 2)],
        &[file(0, HALF, HALF), file(0, HALF, 0)],
        &[file(0, TOP, TOP), file(0, 1, 1)],
        &[file(0, TOP, TOP), file(0, TOP, TOP), file(0, 2, 2)],
        &[file(HALF, HALF, 0)],
        &[file(TOP, 1, 0)],
    ];
    for list in lists {
        assert_eq!(refusal(0, 0, list), Some(17), "{list:?}");
        assert_eq!(refusal(0, 131_072, list), Some(17), "{list:?}");
    }
    for (files, count) in [(65, TOP), (256, 1 << 24), (65_536, 1 << 16)] {
        assert_eq!(refusal(0, 0, &vec![file(0, 0, count); files]), Some(16));
    }
}

#[test]
fn numbers_of_files() {
    for (files, due) in [(0, None), (1, None), (63, None), (64, None), (65, Some(16))] {
        assert_eq!(refusal(0, 0, &vec![file(0, 0, 0); files]), due);
        assert_eq!(refusal(0, 2 * files, &vec![file(7, 1, 0); files]), due);
    }
    assert_eq!(refusal(0, 0, &vec![file(0, 0, 0); 1_000]), Some(16));
}

/// Each place and number of words around the memory's end of 8, and bottoms below it.
#[test]
fn places() {
    for bottom in 0..=8 {
        for place in (0..=10).chain([u32::MAX - 1, u32::MAX]) {
            for words in 0..=10 {
                let past = u64::from(place) + u64::from(words) > 8;
                let below = words > 0 && place < bottom;
                let due = if past || below { Some(17) } else { None };
                let here = file(place, words, 0);
                let places = 2 * words as usize;
                assert_eq!(refusal(bottom, places, &[here]), due);
                // Any file of several.
                let good = file(8, 0, 0);
                assert_eq!(refusal(bottom, places, &[good, here, good]), due);
                assert_eq!(refusal(bottom, places, &[good, good, here]), due);
            }
        }
    }
}

/// The list of words is as long as all files' words together.
#[test]
fn words_of_the_list() {
    let files = [file(0, 2, 0), file(1, 0, 0), file(4, 3, 0)];
    for version in [1, 2] {
        for words in 0..=9 {
            let (mut memory, mut journal) = ([0; 8], [SENTINEL; 10]);
            let words = &[7; 9][..words];
            let refusal = refusal_on(&mut memory, 0, &mut journal, words, &files, version);
            let due = if words.len() == 5 { None } else { Some(18) };
            assert_eq!(refusal, due);
        }
        let refusal = refusal_on(&mut [0; 8], 0, &mut [], &[7], &[], version);
        assert_eq!(refusal, Some(18));
    }
}

#[test]
fn versions() {
    let refused = [0, 3, 4, 255, 256, 257, 258, 1 << 31, 1 << 31 | 1, u32::MAX];
    for version in refused {
        let files = [file(0, 1, 1)];
        let refusal = refusal_on(&mut [0; 8], 0, &mut [SENTINEL; 4], &[7], &files, version);
        assert_eq!(refusal, Some(11));
        assert_eq!(
            refusal_on(&mut [0], 0, &mut [], &[], &[], version),
            Some(11)
        );
        assert_eq!(
            refusal_on(&mut [0], 0, &mut [], &[7], &[], version),
            Some(18)
        );
    }
    for version in [1, 2] {
        assert_eq!(refusal_on(&mut [0], 0, &mut [], &[], &[], version), None);
    }
}
