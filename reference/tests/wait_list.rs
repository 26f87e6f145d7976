//! Document 02, CR 3: the wait list begins again at its end.

use reference::generate::program::{any_program, Program};
use reference::generate::state::gate_state;
use reference::rng::Rng;
use reference::{gate_run, run, GateState};

/// Lists as short as boards have them.
const LENGTHS: [usize; 4] = [1, 2, 3, 5];

/// More than the accesses of the runs below, and a list's entries before the first.
const ACCESSES: usize = 400;

fn short_list(rng: &mut Rng) -> Vec<u16> {
    let entries = rng.pick(&LENGTHS);
    (0..entries).map(|_| rng.below(4) as u16).collect()
}

fn unrolled(waits: &[u16]) -> Vec<u16> {
    waits.iter().copied().cycle().take(ACCESSES).collect()
}

#[test]
fn a_run_takes_the_clocks_that_it_takes_under_the_list_written_out() {
    let mut rng = Rng::new(31);
    for _ in 0..5_000 {
        let Program {
            memory,
            bottom,
            start,
            count,
            ..
        } = any_program(&mut rng);
        let waits = short_list(&mut rng);
        let position = rng.below(waits.len()) as u32;
        let [turning, mut long] = [&waits, &unrolled(&waits)].map(|waits| {
            let mut memory = memory.clone();
            let result = run(&mut memory, bottom, waits, position, start, count);
            (result, memory)
        });
        long.0.position %= waits.len() as u32;
        assert_eq!(turning, long);
    }
}

#[test]
fn a_gate_run_goes_as_under_the_list_written_out() {
    let mut rng = Rng::new(32);
    for _ in 0..5_000 {
        let Program { memory, bottom, .. } = any_program(&mut rng);
        let waits = short_list(&mut rng);
        let start = gate_state(&mut rng, memory.len(), waits.len());
        let clocks = rng.between(0, 300) as u64;
        let [turning, mut long] = [&waits, &unrolled(&waits)].map(|waits| {
            let mut memory = memory.clone();
            (
                gate_run(&mut memory, bottom, waits, &[], start, clocks),
                memory,
            )
        });
        long.0.state.position %= waits.len() as u32;
        assert_eq!(turning, long);
    }
}

/// Row 4 reads A, with or without a wait.
#[test]
fn the_last_entry_leads_to_the_first() {
    for entries in [1, 2, 3, 5, 65_536] {
        for wait in [0, 6] {
            let start = GateState {
                row: 4,
                position: entries - 1,
                ..GateState::default()
            };
            let mut waits = vec![9; entries as usize];
            waits[entries as usize - 1] = wait;
            let result = gate_run(&mut [8], 0, &waits, &[], start, 1);
            let due = GateState {
                row: if wait == 0 { 5 } else { 4 },
                a: if wait == 0 { 8 } else { 0 },
                position: 0,
                begun: wait > 0,
                left: wait,
                ..start
            };
            assert_eq!(result.state, due);
        }
    }
}

/// Five instructions of four accesses take each of the five entries four times.
#[test]
fn five_entries_by_hand() {
    let program = [0x0000_0129; 5]; // move (r1),(r1): 11 clocks, 4 accesses
    let waits = [1, 2, 3, 4, 5];
    let mut memory = program;
    let result = run(&mut memory, 0, &waits, 0, Default::default(), 5);
    assert_eq!((result.ran, result.clocks), (5, 5 * 11 + 4 * 15));
    let total = result.clocks;
    for (clocks, finished) in [(total - 1, 4), (total, 5)] {
        let mut memory = program;
        let state = GateState::start(Default::default());
        let result = gate_run(&mut memory, 0, &waits, &[], state, clocks);
        assert_eq!(result.finished, finished);
        assert_eq!(result.state.position, 0);
    }
}

#[test]
fn an_empty_list_has_no_waits() {
    let mut rng = Rng::new(33);
    for _ in 0..1_000 {
        let Program {
            memory,
            bottom,
            start,
            count,
            ..
        } = any_program(&mut rng);
        let [none, mut zeros] = [&[][..], &[0, 0, 0]].map(|waits| {
            let mut memory = memory.clone();
            (run(&mut memory, bottom, waits, 0, start, count), memory)
        });
        assert_eq!(none.0.position, 0);
        // A list of zeros differs in its position alone.
        zeros.0.position = 0;
        assert_eq!(none, zeros);
        let state = GateState::start(start);
        let result = gate_run(&mut memory.clone(), bottom, &[], &[], state, none.0.clocks);
        assert_eq!(result.finished, u64::from(none.0.ran));
        assert_eq!(result.state.position, 0);
    }
}
