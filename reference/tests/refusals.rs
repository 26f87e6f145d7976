//! The reasons to turn a call down, and which of several is given.

mod common;

use common::machine;
use reference::generate::bottom::refused_bottom;
use reference::generate::state::{gate_state, refused_gate_state};
use reference::image::{image_size, read, to_bytes, write};
use reference::rng::Rng;
use reference::{file_run, gate_clock, gate_run, run};
use reference::{Answer, FileAnswer, GateState, Machine, Refusal};

const TOO_LONG: usize = 16_777_217;

/// The first bottom past the longest memory.
const PAST: u32 = 16_777_217;

fn start() -> Machine {
    machine(&[(0, 2), (5, 77)], "0101")
}

/// Zeros that the system need not provide until they are touched.
fn zeros(words: usize) -> Vec<u32> {
    vec![0; words]
}

/// Of a run of 5 instructions from a list position.
fn run_refusal(memory: &mut [u32], bottom: u32, waits: &[u16], position: u32) -> Option<u8> {
    let result = run(memory, bottom, waits, position, start(), 5);
    let Answer::Refused(refusal) = result.answer else {
        return None;
    };
    assert_eq!((result.machine, result.position), (start(), position));
    assert_eq!((result.ran, result.clocks), (0, 0));
    Some(refusal.number())
}

/// Of a gate run and of the one-clock call, which have the same reasons.
fn gate_refusal(memory: &mut [u32], bottom: u32, waits: &[u16], state: GateState) -> Option<u8> {
    let result = gate_run(memory, bottom, waits, &[], state, 3);
    let mut lent = state;
    let clock = gate_clock(memory, bottom, waits, &mut lent);
    assert_eq!(clock.map(|_| ()), result.answer);
    let refusal = result.answer.err()?;
    assert_eq!((result.state, result.finished), (state, 0));
    assert_eq!(lent, state);
    Some(refusal.number())
}

fn file_refusal(memory: &mut [u32], bottom: u32, journal: &mut [u32], count: u32) -> Option<u8> {
    let former = journal.to_vec();
    let result = file_run(memory, bottom, journal, start(), count);
    let FileAnswer::Refused(refusal) = result.answer else {
        return None;
    };
    assert_eq!(result.machine, start());
    assert_eq!((result.ran, result.pairs), (0, 0));
    assert_eq!(journal, former);
    Some(refusal.number())
}

#[test]
fn numbers_are_those_of_the_papers() {
    let all = [
        Refusal::NoWords,
        Refusal::TooManyWords,
        Refusal::LongWaitList,
        Refusal::BadGateState,
        Refusal::ShortOutput,
        Refusal::CutImage,
        Refusal::WrongTag,
        Refusal::WrongLength,
        Refusal::WrongVersion,
        Refusal::BadFlag,
        Refusal::BadWordCount,
        Refusal::ShortMemory,
        Refusal::TrailingBytes,
        Refusal::TooManyFiles,
        Refusal::FileMisplaced,
        Refusal::WordsMismatched,
        Refusal::BottomTooHigh,
        Refusal::ResetsNotRising,
    ];
    let numbers: Vec<u8> = all.iter().map(|refusal| refusal.number()).collect();
    // 5 and 6 are given no longer (CR 11).
    let due: Vec<u8> = (1..=4).chain(7..=18).chain([21, 22]).collect();
    assert_eq!(numbers, due);
}

#[test]
fn interpreter() {
    let long_list = vec![0; 65_537];
    assert_eq!(run_refusal(&mut [], 0, &[], 0), Some(1));
    let mut long = zeros(TOO_LONG);
    // A position past either list is the last of the reasons.
    for position in [0, 65_537, u32::MAX] {
        assert_eq!(run_refusal(&mut [], 1, &long_list, position), Some(1));
        let refusal =
            |memory: &mut [u32], bottom| run_refusal(memory, bottom, &long_list, position);
        assert_eq!(refusal(&mut long, 0), Some(2));
        assert_eq!(refusal(&mut long, PAST + 1), Some(2));
        assert_eq!(refusal(&mut long[1..], PAST), Some(21));
        assert_eq!(refusal(&mut long[1..], PAST - 1), Some(3));
        let due = if position == 0 { None } else { Some(4) };
        let longest = &long_list[1..];
        assert_eq!(
            run_refusal(&mut long[1..], PAST - 1, longest, position),
            due
        );
    }
    let mut memory = [3, 4, 5, 6];
    assert_eq!(run_refusal(&mut memory, 5, &long_list, 0), Some(21));
    assert_eq!(run_refusal(&mut memory, 4, &long_list, 0), Some(3));
    assert_eq!(
        run_refusal(&mut memory, 4, &long_list[1..], 65_536),
        Some(4)
    );
    assert_eq!(memory, [3, 4, 5, 6]);
}

#[test]
fn gate_machine() {
    let long_list = vec![0; 65_537];
    let bad = GateState {
        row: 13,
        ..GateState::default()
    };
    assert_eq!(gate_refusal(&mut [], 1, &long_list, bad), Some(1));
    let mut long = zeros(TOO_LONG);
    assert_eq!(gate_refusal(&mut long, PAST + 1, &long_list, bad), Some(2));
    let memory = &mut long[1..];
    assert_eq!(gate_refusal(memory, PAST, &long_list, bad), Some(21));
    assert_eq!(gate_refusal(memory, PAST - 1, &long_list, bad), Some(3));
    assert_eq!(gate_refusal(&mut [7], 2, &long_list[1..], bad), Some(21));
    assert_eq!(gate_refusal(&mut [7], 1, &long_list[1..], bad), Some(4));
    let good = GateState::default();
    assert_eq!(gate_refusal(&mut [7], 1, &long_list[1..], good), None);
}

/// Each bound of reason 4 from both sides.
#[test]
fn gate_states() {
    let is_refused = |row, begun, left| {
        let state = GateState {
            row,
            begun,
            left,
            ..GateState::default()
        };
        gate_refusal(&mut [7], 0, &[], state) == Some(4)
    };
    for row in 0..=255 {
        let access = [1, 4, 6, 9].contains(&row);
        assert_eq!(is_refused(row, false, 0), row > 12);
        assert_eq!(is_refused(row, true, 1), !access);
        assert_eq!(is_refused(row, true, u16::MAX), !access);
        assert!(is_refused(row, true, 0));
        assert!(is_refused(row, false, 1));
        assert!(is_refused(row, false, u16::MAX));
    }
}

/// CR 3: the position is below the list's length, or 0 for an empty list; of the gate
/// state and, with CR 7, of the interpreter's run.
#[test]
fn list_positions() {
    let refusal = |entries, position| {
        let state = GateState {
            row: 9,
            position,
            ..GateState::default()
        };
        let waits = vec![1; entries];
        let gates = gate_refusal(&mut [7; 4], 0, &waits, state);
        assert_eq!(run_refusal(&mut [7; 4], 0, &waits, position), gates);
        gates
    };
    for entries in [0, 1, 2, 5, 65_535, 65_536] {
        let end = entries.max(1) as u32;
        for fits in [0, end - 1] {
            assert_eq!(refusal(entries, fits), None);
        }
        for past in [end, end + 1, 65_537, u32::MAX] {
            assert_eq!(refusal(entries, past), Some(4));
        }
    }
    // 3 comes before 4.
    for position in [0, 65_536, 65_537] {
        assert_eq!(refusal(65_537, position), Some(3));
    }
}

#[test]
fn generated_gate_states() {
    let mut rng = Rng::new(9);
    for _ in 0..20_000 {
        let entries = rng.below(10);
        let waits = vec![2; entries];
        let bad = refused_gate_state(&mut rng, 4, entries);
        let bottom = rng.between(0, 4) as u32;
        assert_eq!(gate_refusal(&mut [7; 4], bottom, &waits, bad), Some(4));
        let past = refused_bottom(&mut rng, 4);
        assert_eq!(gate_refusal(&mut [7; 4], past, &waits, bad), Some(21));
        let good = gate_state(&mut rng, 4, entries);
        assert_eq!(gate_refusal(&mut [7; 4], past, &waits, good), Some(21));
        assert_eq!(gate_refusal(&mut [7; 4], bottom, &waits, good), None);
    }
}

/// Any count and any journal is taken (CR 11): r0 is past the memory, so that a file run
/// that is carried out is undone at once.
#[test]
fn file_runs() {
    assert_eq!(file_refusal(&mut [], 1, &mut [], 65_537), Some(1));
    let mut long = zeros(TOO_LONG);
    assert_eq!(file_refusal(&mut long, PAST + 1, &mut [], 65_537), Some(2));
    let refusal =
        |bottom, journal: &mut [u32], count| file_refusal(&mut [7], bottom, journal, count);
    for count in [0, 1, 65_536, 65_537, u32::MAX] {
        let memory = &mut long[1..];
        assert_eq!(file_refusal(memory, PAST, &mut [], count), Some(21));
        for places in [0, 1, 2, 3, 131_071, 131_072] {
            let journal = &mut vec![1; places];
            assert_eq!(refusal(0, journal, count), None);
            assert_eq!(refusal(1, journal, count), None);
            assert_eq!(refusal(2, journal, count), Some(21));
        }
    }
}

#[test]
fn image_writer() {
    let refusal = |memory: &[u32], version, output: &mut [u8]| {
        let former = output.to_vec();
        let refusal = write(&start(), memory, version, output).err();
        assert!(refusal.is_none() || output == former);
        refusal.map(Refusal::number)
    };
    let long = zeros(TOO_LONG);
    // A bad version is the last of the reasons (CR 1).
    for (version, last) in [(1, None), (2, None), (0, Some(11)), (3, Some(11))] {
        assert_eq!(refusal(&[], version, &mut []), Some(1));
        assert_eq!(refusal(&long, version, &mut []), Some(2));
        assert_eq!(refusal(&long[1..], version, &mut []), Some(7));
        assert_eq!(refusal(&[7], version, &mut [9; 62]), Some(7));
        assert_eq!(refusal(&[7], version, &mut [9; 63]), last);
        assert_eq!(refusal(&[7], version, &mut [9; 70]), last);
        let mut short = vec![9; 4_161];
        assert_eq!(refusal(&[7; 1_025], version, &mut short), Some(7));
    }
    assert_eq!(image_size(1_025), 4_162);
}

/// The reader's number for an image; memory must stay and all must be 0.
fn read_refusal(image: &[u8], lent: usize) -> Option<u8> {
    let mut memory = vec![0xABCD_EF01; lent];
    let result = read(image, &mut memory);
    let refusal = result.answer.err()?;
    let nothing = (result.machine, result.words, result.version);
    assert_eq!(nothing, (Machine::default(), 0, 0));
    assert!(memory.iter().all(|&word| word == 0xABCD_EF01));
    Some(refusal.number())
}

/// The image of two words with the bytes from `at` on replaced.
fn changed(at: usize, bytes: &[u8]) -> Vec<u8> {
    let mut image = to_bytes(&start(), &[0x11, 0x22], 1).unwrap();
    image[at..at + bytes.len()].copy_from_slice(bytes);
    image
}

#[test]
fn image_reader_numbers() {
    assert_eq!(read_refusal(&changed(0, &[]), 2), None);
    for header in [0, 4, 39, 46, 53, 64] {
        assert_eq!(read_refusal(&changed(header, &[0x77]), 2), Some(9));
        assert_eq!(read_refusal(&changed(header + 1, &[0x77]), 2), Some(10));
        assert_eq!(read_refusal(&changed(header + 2, &[0x77]), 2), Some(10));
    }
    for version in 0..=255 {
        let due = if [1, 2].contains(&version) {
            None
        } else {
            Some(11)
        };
        assert_eq!(read_refusal(&changed(3, &[version]), 2), due);
    }
    for flag in 42..46 {
        assert_eq!(read_refusal(&changed(flag, &[2]), 2), Some(12));
        assert_eq!(read_refusal(&changed(flag, &[255]), 2), Some(12));
    }
    assert_eq!(read_refusal(&changed(49, &[0, 0, 0, 0]), 2), Some(13));
    assert_eq!(read_refusal(&changed(49, &[1, 0, 0, 1]), 2), Some(13));
    assert_eq!(read_refusal(&changed(49, &[0, 0, 0, 1]), 2), Some(14));
    assert_eq!(read_refusal(&changed(49, &[3, 0, 0, 0]), 2), Some(14));
    assert_eq!(read_refusal(&changed(49, &[3, 0, 0, 0]), 3), Some(10));
    assert_eq!(read_refusal(&changed(49, &[1, 0, 0, 0]), 2), Some(10));
    assert_eq!(read_refusal(&changed(0, &[]), 1), Some(14));
    assert_eq!(read_refusal(&changed(0, &[]), 0), Some(14));
}

/// The order within a field: header cut, tag, length, value cut, value.
#[test]
fn image_reader_order() {
    assert_eq!(read_refusal(&[], 2), Some(8));
    assert_eq!(read_refusal(&[0x99], 2), Some(8));
    assert_eq!(read_refusal(&[0x99, 9], 2), Some(8));
    assert_eq!(read_refusal(&[0x99, 9, 9], 2), Some(9));
    assert_eq!(read_refusal(&[1, 9, 0], 2), Some(10));
    assert_eq!(read_refusal(&[1, 1, 0], 2), Some(8));
    assert_eq!(read_refusal(&[1, 1, 0, 3], 2), Some(11));
    assert_eq!(read_refusal(&[1, 1, 0, 1], 2), Some(8));
    assert_eq!(read_refusal(&[1, 1, 0, 2], 2), Some(8));
    // A bad flag is found only once the whole value is there.
    let bad_flag = changed(42, &[2]);
    assert_eq!(read_refusal(&bad_flag[..45], 2), Some(8));
    assert_eq!(read_refusal(&bad_flag[..46], 2), Some(12));
    // M is judged before the fields that follow it, 13 before 14.
    let zero = changed(49, &[0, 0, 0, 0]);
    assert_eq!(read_refusal(&zero[..52], 0), Some(8));
    assert_eq!(read_refusal(&zero[..53], 0), Some(13));
    let huge = changed(49, &[255; 4]);
    assert_eq!(read_refusal(&huge, 0), Some(13));
    // An earlier field comes first, whatever the number.
    let mut both = changed(0, &[]);
    both[3] = 3;
    both[39] = 0x77;
    assert_eq!(read_refusal(&both, 2), Some(11));
    both.push(0);
    assert_eq!(read_refusal(&both, 2), Some(11));
}
