//! Whether all contenders do the same, before anything is measured.

use super::journals;
use super::resets::FAR;
use super::traverses::{self, Traverse};
use super::workload::{
    generated, halting_with_resets, moves_loop, register_loop, reset_on_every_clock,
    stacking_above_bottom, stacking_loop, stacking_outside, stacking_with_resets, Workload,
};
use crate::baseline::{Contender, CONTENDERS};
use crate::words::{machine_words, state_words};
use fm8502::library::{MACHINE_SIZE, STATE_SIZE};
use reference::generate::journal::{
    pairs_of_program, places, storing_program, storing_traverse_case, traverse_places,
};
use reference::generate::program::{any_program, Program};
use reference::generate::resets::resets;
use reference::generate::state::gate_state;
use reference::generate::traverse::traverse_case;
use reference::image::image_size;
use reference::rng::Rng;

/// Ends the program with the case where two contenders differ.
pub fn check(starts: u64) {
    check_starts(starts);
    check_measured();
    check_resets();
    for words in [1, 2, 1_023, 1_024, 1_025, 2_048, 5_000] {
        check_images(words, 1);
        check_images(words, 2);
    }
    for (traverse, _) in traverses::measured() {
        check_traverse(&traverse);
    }
    for (workload, pairs) in journals::measured() {
        check_file_run(&workload, 2 * pairs, journals::COUNT);
        check_file_run(&workload, 2 * pairs - 1, journals::COUNT);
    }
}

/// Generated starts, without resets and with them.
fn check_starts(starts: u64) {
    for seed in 0..starts {
        let mut rng = Rng::new(seed);
        let program = any_program(&mut rng);
        let mut workload = workload(seed, &program);
        check_runs(&workload, program.position, program.count);
        check_gates(&workload, workload.state(), rng.below(400) as u64);
        let state = gate_state(&mut rng, program.memory.len(), program.waits.len());
        check_gates(&workload, state_words(&state), 60);
        workload.resets = resets(&mut rng, &program, state, 60);
        check_gates(&workload, state_words(&state), 60);
        let mut case = traverse_case(&mut rng, &program);
        check_traverse(&Traverse::generated(&workload.name, &case));
        case.places = traverse_places(&mut rng, &case);
        check_traverse(&Traverse::generated(&workload.name, &case));
        check_storing(&mut rng, seed);
    }
}

fn workload(seed: u64, program: &Program) -> Workload {
    Workload {
        name: format!("start {seed}"),
        machine: machine_words(&program.start),
        memory: program.memory.clone(),
        bottom: program.bottom,
        waits: program.waits.clone(),
        resets: Vec::new(),
    }
}

/// Programs that store much, with journals around what they need.
fn check_storing(rng: &mut Rng, seed: u64) {
    let program = storing_program(rng);
    let places = places(rng, pairs_of_program(&program));
    check_file_run(&workload(seed, &program), places, program.count);
    let case = storing_traverse_case(rng);
    check_traverse(&Traverse::generated(&format!("start {seed}"), &case));
}

/// The measured programs, without waits and with them.
fn check_measured() {
    let plain = [
        register_loop(),
        stacking_loop(),
        stacking_above_bottom(),
        stacking_outside(),
        generated(),
        moves_loop(),
    ];
    for workload in plain.into_iter().flat_map(Workload::with_lists) {
        check_runs(&workload, 0, 65_536);
        check_gates(&workload, workload.state(), 50_000);
    }
}

/// The measured programs with resets, fewer of them.
fn check_resets() {
    let clocks = 50_000;
    let workload = stacking_with_resets(clocks);
    check_gates(&workload, workload.state(), clocks);
    let workload = halting_with_resets(1_000, FAR);
    check_gates(&workload, workload.state(), FAR);
    let workload = reset_on_every_clock(1_000);
    check_gates(&workload, workload.state(), 1_000);
}

/// All contenders' outcomes must be the first one's.
fn all_same<T: PartialEq>(case: &str, outcome: impl Fn(&Contender) -> T) {
    let first = outcome(&CONTENDERS[0]);
    for contender in &CONTENDERS[1..] {
        let name = contender.name;
        assert!(outcome(contender) == first, "{name} differs: {case}");
    }
}

fn check_runs(start: &Workload, position: u32, count: u32) {
    let (bottom, waits) = (start.bottom, &start.waits);
    all_same(&format!("run, {}", start.name), |contender| {
        let (mut memory, mut machine) = (start.memory.clone(), start.machine);
        let mut result = [0; 3];
        let lent = (&mut memory, &mut machine, &mut result);
        let code = (contender.run)(lent.0, bottom, waits, position, lent.1, count, lent.2);
        (code, memory, machine, result)
    });
    check_file_run(start, 2 * count as usize, count);
}

/// With a journal of so many places.
fn check_file_run(start: &Workload, places: usize, count: u32) {
    let bottom = start.bottom;
    all_same(&format!("file run, {}", start.name), |contender| {
        let (mut memory, mut machine) = (start.memory.clone(), start.machine);
        let mut journal = vec![7; places];
        let mut result = [0; 2];
        let lent = (&mut memory, &mut journal, &mut machine);
        let code = (contender.file_run)(lent.0, bottom, lent.1, lent.2, count, &mut result);
        (code, memory, journal, machine, result)
    });
}

/// Under both rules.
fn check_traverse(start: &Traverse) {
    for version in [1, 2] {
        all_same(&format!("traverse, {}", start.name), |contender| {
            let (mut memory, mut machine) = (start.memory.clone(), start.machine);
            let mut journal = vec![7; start.places];
            let mut result = [0; 3];
            let code = (contender.traverse)(
                &mut memory,
                start.bottom,
                &mut journal,
                &start.words,
                &start.files,
                &mut machine,
                version,
                &mut result,
            );
            (code, memory, journal, machine, result)
        });
    }
}

fn check_gates(start: &Workload, state: [u32; STATE_SIZE], clocks: u64) {
    let (bottom, waits, resets) = (start.bottom, &start.waits, &start.resets);
    all_same(&format!("gate run, {}", start.name), |contender| {
        let (mut memory, mut state) = (start.memory.clone(), state);
        let mut result = [0; 1];
        let lent = (&mut memory, &mut state, &mut result);
        let code = (contender.gate_run)(lent.0, bottom, waits, resets, lent.1, clocks, lent.2);
        (code, memory, state, result)
    });
}

fn check_images(words: usize, version: u32) {
    let mut rng = Rng::new(words as u64);
    let memory: Vec<u32> = (0..words).map(|_| rng.word()).collect();
    let mut machine = [0; MACHINE_SIZE];
    machine[..8].fill_with(|| rng.word());
    machine[8..].fill_with(|| u32::from(rng.flag()));
    all_same(&format!("image of {words} words"), |contender| {
        let mut image = vec![7; image_size(words)];
        let mut size = [0];
        (contender.image_write)(&memory, &machine, version, &mut image, &mut size);
        let mut loaded = (vec![7; words], [7; MACHINE_SIZE], [0; 2]);
        (contender.image_read)(&image, &mut loaded.0, &mut loaded.1, &mut loaded.2);
        (image, size, loaded)
    });
}
