//! Machines, states, files and results of the wrong length, which only a host that calls
//! the library directly can lend.

use super::Check;
use fm8502::library::{self, FILE_SIZE, MACHINE_SIZE, STATE_SIZE};

/// A machine's words, and how many places its result has more than would fit.
const MACHINES: [(usize, isize); 10] = [
    (0, 0),
    (1, 0),
    (MACHINE_SIZE - 1, 0),
    (MACHINE_SIZE + 1, 0),
    (STATE_SIZE, 0),
    (MACHINE_SIZE, -3),
    (MACHINE_SIZE, -2),
    (MACHINE_SIZE, -1),
    (MACHINE_SIZE, 1),
    (MACHINE_SIZE, 2),
];

/// The places of a result: of a run, a file run, a traverse, an image written and one read.
const RUN_PLACES: usize = 3;
const FILE_PLACES: usize = 2;
const TRAVERSE_PLACES: usize = 3;
const WRITE_PLACES: usize = 1;
const READ_PLACES: usize = 2;

/// A state's words and its result's places, of which 1 would fit.
const STATES: [(usize, usize); 6] = [
    (0, 1),
    (MACHINE_SIZE, 1),
    (STATE_SIZE - 1, 1),
    (STATE_SIZE + 1, 1),
    (STATE_SIZE, 0),
    (STATE_SIZE, 2),
];

/// The places of a traverse's files: whole files, and with each remainder.
const FILES: [usize; 11] = [0, 1, 2, 3, 4, 5, 6, 7, 8, 258, 260];

/// Words of memory.
const WORDS: u32 = 4;

/// What a call is lent besides: good, and to refuse if nothing came first.
#[derive(Clone, Copy)]
struct Rest {
    bottom: u32,
    position: u32,
    resets: &'static [u64],
}

const RESTS: [Rest; 4] = [
    Rest {
        bottom: 0,
        position: 0,
        resets: &[],
    },
    Rest {
        bottom: WORDS + 1,
        position: 0,
        resets: &[],
    },
    Rest {
        bottom: 0,
        position: 1,
        resets: &[1, 1],
    },
    Rest {
        bottom: WORDS + 1,
        position: u32::MAX,
        resets: &[1, 0],
    },
];

/// Counts a call, which must be answered so and leave everything lent unchanged.
fn misfit(calls: &mut usize, call: &str, code: u32, unchanged: bool) -> Check {
    *calls += 1;
    if code == library::MISFIT && unchanged {
        return Ok(());
    }
    Err(format!(
        "{call} with a wrong length: code {code}; unchanged: {unchanged}\n"
    ))
}

/// Returns how many calls were made.
pub fn check() -> Result<usize, String> {
    let mut calls = 0;
    for rest in RESTS {
        check_machines(&mut calls, rest)?;
        check_states(&mut calls, rest)?;
    }
    Ok(calls)
}

fn check_machines(calls: &mut usize, rest: Rest) -> Check {
    for (length, more) in MACHINES {
        let places = |fitting: usize| fitting.saturating_add_signed(more);
        check_run(calls, rest, length, places(RUN_PLACES))?;
        check_file_run(calls, rest, length, places(FILE_PLACES))?;
        check_image_write(calls, length, places(WRITE_PLACES))?;
        check_image_read(calls, length, places(READ_PLACES))?;
        for files in FILES {
            check_traverse(calls, rest, files, length, places(TRAVERSE_PLACES))?;
        }
    }
    for files in FILES.into_iter().filter(|files| files % FILE_SIZE != 0) {
        check_traverse(calls, rest, files, MACHINE_SIZE, TRAVERSE_PLACES)?;
    }
    Ok(())
}

fn check_states(calls: &mut usize, rest: Rest) -> Check {
    for (length, places) in STATES {
        check_state(calls, rest, length, places)?;
    }
    Ok(())
}

/// A machine of `length` words and `places` result places.
fn check_run(calls: &mut usize, rest: Rest, length: usize, places: usize) -> Check {
    let mut memory = [7; WORDS as usize];
    let (mut machine, mut result) = (vec![7; length], vec![7; places]);
    let lent = (memory, machine.clone(), result.clone());
    let Rest {
        bottom, position, ..
    } = rest;
    let (words, places) = (&mut machine, &mut result);
    let code = library::run(&mut memory, bottom, &[], position, words, 1, places);
    misfit(calls, "run", code, (memory, machine, result) == lent)
}

fn check_file_run(calls: &mut usize, rest: Rest, length: usize, places: usize) -> Check {
    let (mut memory, mut journal) = ([7; WORDS as usize], [7; 8]);
    let (mut machine, mut result) = (vec![7; length], vec![7; places]);
    let lent = (memory, journal, machine.clone(), result.clone());
    let code = library::file_run(
        &mut memory,
        rest.bottom,
        &mut journal,
        &mut machine,
        1,
        &mut result,
    );
    let now = (memory, journal, machine, result);
    misfit(calls, "file run", code, now == lent)
}

/// Files of so many places, a machine of `length` words and `places` result places. Where
/// the rest is good, the files are good too; else every reason is there to refuse them.
fn check_traverse(
    calls: &mut usize,
    rest: Rest,
    files: usize,
    length: usize,
    places: usize,
) -> Check {
    let (mut memory, mut journal) = ([7; WORDS as usize], [7; 8]);
    let (mut machine, mut result) = (vec![7; length], vec![7; places]);
    let lent = (memory, journal, machine.clone(), result.clone());
    let is_good = rest.bottom == 0 && rest.position == 0;
    let (files, words, version) = if is_good {
        (vec![0; files], &[][..], 1)
    } else {
        (vec![u32::MAX; files], &[7][..], 0)
    };
    let code = library::traverse(
        &mut memory,
        rest.bottom,
        &mut journal,
        words,
        &files,
        &mut machine,
        version,
        &mut result,
    );
    let now = (memory, journal, machine, result);
    misfit(calls, "traverse", code, now == lent)
}

/// With an output and a version that are good, and with bad ones.
fn check_image_write(calls: &mut usize, length: usize, places: usize) -> Check {
    let memory = [7; WORDS as usize];
    let (machine, mut result) = (vec![7; length], vec![7; places]);
    for (room, version) in [(128, 1), (128, 2), (128, 3), (0, 0)] {
        let mut image = vec![7; room];
        let lent = (image.clone(), result.clone());
        let code = library::image_write(&memory, &machine, version, &mut image, &mut result);
        misfit(calls, "image write", code, (image, result.clone()) == lent)?;
    }
    Ok(())
}

/// Bytes that are no image.
fn check_image_read(calls: &mut usize, length: usize, places: usize) -> Check {
    let mut memory = [7; WORDS as usize];
    let (mut machine, mut result) = (vec![7; length], vec![7; places]);
    let lent = (memory, machine.clone(), result.clone());
    let code = library::image_read(&[7; 128], &mut memory, &mut machine, &mut result);
    let now = (memory, machine, result);
    misfit(calls, "image read", code, now == lent)
}

/// A state of `length` words and `places` result places.
fn check_state(calls: &mut usize, rest: Rest, length: usize, places: usize) -> Check {
    let mut memory = [7; WORDS as usize];
    let (mut state, mut result) = (vec![0; length], vec![7; places]);
    let lent = (memory, state.clone(), result.clone());
    let Rest { bottom, resets, .. } = rest;
    let (words, places) = (&mut state, &mut result);
    let code = library::gate_run(&mut memory, bottom, &[], resets, words, 1, places);
    let now = (memory, state.clone(), result.clone());
    misfit(calls, "gate run", code, now == lent)?;
    let code = library::clock(&mut memory, bottom, &[], &mut state, &mut result);
    let now = (memory, state, result);
    misfit(calls, "clock", code, now == lent)
}
