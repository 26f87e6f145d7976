//! Calls that are refused for one reason or for several: which number comes first.

use super::gates::{check_clocks, check_gate_run};
use super::images::{self, NO_VERSIONS, VERSIONS};
use super::{expected, programs, proved, run_case, same};
use crate::codes::JOURNAL_FULL;
use fm8502::library::{self, MACHINE_SIZE, STATE_SIZE, STOPPED};
use reference::generate::program::{program, Kind, Program};
use reference::generate::state::{gate_state, refused_gate_state};
use reference::image::image_size;
use reference::rng::Rng;
use reference::{GateState, Machine};
use std::ops::Range;

/// No entries, and as many as the list may have, one more, and more.
const LIST_LENGTHS: [usize; 4] = [0, 65_536, 65_537, 70_000];

/// Whether an access has begun, and its clocks left: none; one with 1 clock and with
/// the most; begun without clocks; clocks without one begun.
const ACCESSES: [(bool, u16); 5] = [
    (false, 0),
    (true, 1),
    (true, u16::MAX),
    (true, 0),
    (false, 1),
];

/// Reset lists: none; some that rise; equal neighbours and falling ones, at the front, in
/// the middle, at the end, and only past the clocks of the runs.
const RESET_LISTS: [&[u64]; 14] = [
    &[],
    &[0],
    &[u64::MAX],
    &[0, 1, 49, 50, u64::MAX],
    &[0, 0],
    &[1, 0],
    &[3, 3, 4, 5],
    &[3, 4, 4, 5],
    &[3, 4, 5, 5],
    &[3, 5, 4, 6],
    &[0, 51, 51],
    &[0, 52, 51],
    &[u64::MAX, u64::MAX],
    &[u64::MAX, u64::MAX - 1],
];

/// Places in a state's words.
const FLAGS: Range<usize> = 8..12;
const ROW: usize = 12;
const BEGUN: usize = 19;
const LEFT: usize = 20;

/// Every combination of what can be wrong with a call, but for a memory that is
/// too long. Returns how many calls were made.
pub fn check(rng: &mut Rng) -> Result<usize, String> {
    let good = program(rng, Kind::Tame);
    let waits: Vec<u16> = (0..70_000).map(|_| rng.below(4) as u16).collect();
    let mut calls = 0;
    for memory in [&good.memory[..], &[]] {
        for bottom in bottoms(memory.len()) {
            let program = Program {
                memory: memory.to_vec(),
                bottom,
                waits: Vec::new(),
                position: 0,
                start: good.start,
                count: 9,
            };
            calls += check_lists(rng, &program, &waits)?;
            calls += check_file_run(&program)?;
        }
        calls += check_write(memory, &good.start)?;
    }
    calls += check_words_kept(&waits)?;
    Ok(calls)
}

/// None, the whole memory, one word more, and as many as can be asked for.
fn bottoms(words: usize) -> Vec<u32> {
    let length = words as u32;
    let mut bottoms = vec![0, length, length + 1, u32::MAX];
    bottoms.dedup();
    bottoms
}

/// With wait lists up to the longest and past it.
fn check_lists(rng: &mut Rng, program: &Program, waits: &[u16]) -> Result<usize, String> {
    let with_list = |entries: usize| Program {
        waits: waits[..entries].to_vec(),
        ..program.clone()
    };
    let mut calls = 0;
    for program in LIST_LENGTHS.map(with_list) {
        programs::compare_run(&program)?;
        calls += 1 + check_gate(rng, &program)?;
        calls += check_too_wide(&program)?;
        calls += check_rows(&program)?;
        calls += check_reset_lists(&program)?;
    }
    for program in [0, 1, 2, 3, 5, 65_535, 65_536, 65_537].map(with_list) {
        calls += check_positions(&program)?;
    }
    Ok(calls)
}

fn check_gate(rng: &mut Rng, program: &Program) -> Result<usize, String> {
    const STATES: usize = 40;
    let entries = program.waits.len();
    for number in 0..STATES {
        let state = match number % 4 {
            0 => gate_state(rng, 16, entries),
            _ => refused_gate_state(rng, 16, entries),
        };
        check_gate_run(program, &[], &state, rng.pick(&[0, 1, 50]))?;
    }
    Ok(STATES)
}

/// Each row, and some past the last, with and without an access.
fn check_rows(program: &Program) -> Result<usize, String> {
    let mut calls = 0;
    for row in (0..=14).chain([127, 128, 255]) {
        for (begun, left) in ACCESSES {
            let state = GateState {
                row,
                begun,
                left,
                ..GateState::default()
            };
            calls += check_one_clock(program, &state)?;
        }
    }
    Ok(calls)
}

/// As a gate run and as the one-clock call; returns that these are two.
fn check_one_clock(program: &Program, state: &GateState) -> Result<usize, String> {
    check_gate_run(program, &[], state, 1)?;
    check_clocks(program, *state, 1)?;
    Ok(2)
}

/// For a good state and a bad one: 22 comes after 3 and before 4.
fn check_reset_lists(program: &Program) -> Result<usize, String> {
    let states = [4, 13].map(|row| GateState {
        row,
        ..GateState::default()
    });
    let mut calls = 0;
    for resets in RESET_LISTS {
        for state in &states {
            for clocks in [0, 1, 50] {
                check_gate_run(program, resets, state, clocks)?;
                calls += 1;
            }
        }
    }
    Ok(calls)
}

/// List positions up to the list's end, at it and past it: of a run, and in a state that
/// is good otherwise, where row 4 takes an entry.
fn check_positions(program: &Program) -> Result<usize, String> {
    let end = program.waits.len() as u32;
    let last = end.saturating_sub(1);
    let mut positions = vec![0, 1, last, end, end + 1, 65_536, 65_537, 1 << 31, u32::MAX];
    positions.sort();
    positions.dedup();
    let mut calls = 0;
    for &position in &positions {
        let state = GateState {
            row: 4,
            position,
            ..GateState::default()
        };
        calls += check_one_clock(program, &state)?;
        programs::compare_run(&Program {
            position,
            ..program.clone()
        })?;
        calls += 1;
    }
    Ok(calls)
}

/// Words that are no row of 8 bits or no clocks left of 16 bits are refused as a row
/// above 12 is, and flags that are lent as 9 stay.
fn check_too_wide(program: &Program) -> Result<usize, String> {
    // Row, begun, clocks left.
    let states = [(256, 0, 0), (0, 0, 65_536), (1, 1, 65_536)];
    let mut calls = 0;
    for (row, begun, left) in states {
        let mut words = [0; STATE_SIZE];
        words[FLAGS].fill(9);
        (words[ROW], words[BEGUN], words[LEFT]) = (row, begun, left);
        calls += check_too_wide_words(program, &words)?;
    }
    Ok(calls)
}

/// As gate runs with a reset list that rises and with one that does not, and as the
/// one-clock call.
fn check_too_wide_words(program: &Program, words: &[u32]) -> Result<usize, String> {
    let Program {
        memory,
        bottom,
        waits,
        ..
    } = program;
    let bad_row = GateState {
        row: 255,
        ..GateState::default()
    };
    let gate_run = |resets: &[u64]| proved::gate_run_on(memory, *bottom, waits, resets, words, 1);
    let calls = [
        (&[0][..], gate_run(&[0])),
        (&[1, 1], gate_run(&[1, 1])),
        (&[], proved::clock(memory, *bottom, waits, words)),
    ];
    for (resets, proved) in &calls {
        let mut expected = expected::gate_run(memory, *bottom, waits, resets, &bad_row, 1);
        expected.words = words.to_vec();
        same("gate run or clock", proved, &expected, || {
            let far = format!("{words:?} resets {resets:?}");
            run_case(memory, *bottom, &bad_row.machine(), waits, far)
        })?;
    }
    Ok(calls.len())
}

/// Any count and any journal is taken (CR 11). The program does not loop, so that it ends
/// however high the count is.
fn check_file_run(program: &Program) -> Result<usize, String> {
    let mut calls = 0;
    for count in [0, 1, 9, 65_536, 65_537, u32::MAX] {
        let program = Program {
            count,
            ..program.clone()
        };
        for places in [0, 1, 2, 3, 7, 17, 18, 131_073] {
            programs::compare_file_run(&program, places)?;
            calls += 1;
        }
    }
    Ok(calls)
}

/// Refused or undone, a run leaves the machine's words, flags that are lent as 9
/// among them. The memory's first word increments r1; then the run is outside, or the
/// next word is no instruction, or it stores to the word at r2 and is outside after that.
fn check_words_kept(long_waits: &[u16]) -> Result<usize, String> {
    const INCREMENT: u32 = 0x0001_0021;
    const ADD_TO: u32 = 0x0003_0141;
    let undone = [3, 4, STOPPED, STOPPED, STOPPED];
    let full = [3, 4, JOURNAL_FULL, JOURNAL_FULL, STOPPED];
    let cases: [(&mut [u32], u32, [u32; 5]); 4] = [
        (&mut [INCREMENT], 1, undone),
        (&mut [INCREMENT, INCREMENT | 1 << 14], 2, undone),
        (&mut [INCREMENT, ADD_TO], 2, undone),
        (&mut [INCREMENT, ADD_TO], 0, full),
    ];
    let mut calls = 0;
    for (memory, bottom, due) in cases {
        let past = memory.len() as u32 + 1;
        calls += check_kept(memory, bottom, long_waits, due)?;
        calls += check_kept(memory, past, long_waits, [21; 5])?;
    }
    Ok(calls)
}

/// Runs with a list that is too long and with a position past the list, and file runs
/// with two journals that have no pair and one that has one.
fn check_kept(
    memory: &mut [u32],
    bottom: u32,
    long_waits: &[u16],
    due: [u32; 5],
) -> Result<usize, String> {
    let mut machine = [0; MACHINE_SIZE];
    machine[FLAGS].fill(9);
    let lent = machine;
    let mut run = |waits: &[u16], position| {
        library::run(
            memory,
            bottom,
            waits,
            position,
            &mut machine,
            9,
            &mut [0; 3],
        )
    };
    let mut codes = vec![run(long_waits, 0), run(&[2, 1], 2)];
    for places in [0, 1, 2] {
        let (journal, result) = (&mut vec![0; places], &mut [0; 2]);
        let code = library::file_run(memory, bottom, journal, &mut machine, 9, result);
        codes.push(code);
    }
    if codes != due || machine != lent {
        return Err(format!(
            "a run and file runs with flags of 9, bottom {bottom}: codes {codes:?}, machine {machine:?}\n"
        ));
    }
    Ok(codes.len())
}

fn check_write(memory: &[u32], start: &Machine) -> Result<usize, String> {
    let size = image_size(memory.len());
    let rooms = [0, 1, size - 1, size, size + 1];
    let versions = VERSIONS.iter().chain(&NO_VERSIONS);
    let calls = versions.flat_map(|&version| rooms.map(|room| (version, room)));
    let mut made = 0;
    for (version, room) in calls {
        images::check_write(memory, start, version, room)?;
        made += 1;
    }
    Ok(made)
}
