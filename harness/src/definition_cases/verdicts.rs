//! Whether a run is refused, and with which number.

use super::programs::small;
use super::shapes::{start_case, verdict_case};
use reference::generate::bottom::refused_bottom;
use reference::generate::position::refused_position;
use reference::generate::resets::{refused_resets, resets};
use reference::generate::state::{gate_state, refused_gate_state};
use reference::rng::Rng;
use reference::GateState;

const VERDICTS: usize = 100;
const STARTS: usize = 20;

pub fn of_gate_runs(rng: &mut Rng) -> Vec<String> {
    let mut cases: Vec<String> = (0..VERDICTS).map(|i| state_verdict(rng, i)).collect();
    cases.extend(position_verdicts());
    cases.extend(row_verdicts());
    cases.extend(bottom_verdicts());
    cases.extend(reset_verdicts());
    cases
}

pub fn of_runs(rng: &mut Rng) -> Vec<String> {
    let mut cases: Vec<String> = (0..STARTS).map(|i| any_start(rng, i)).collect();
    let positions = positions().into_iter();
    cases.extend(positions.map(|(waits, position)| start_case(&[0], 0, &waits, position)));
    for position in [0, 1] {
        let boards = memories_and_bottoms().into_iter();
        cases.extend(boards.map(|(memory, bottom)| start_case(&memory, bottom, &[], position)));
    }
    cases
}

/// Whether a gate run takes a state in any row; every other is refused, every tenth for
/// its memory, every tenth for its bottom, and every fifth for its resets.
fn state_verdict(rng: &mut Rng, number: usize) -> String {
    let mut p = small(rng);
    let (words, entries) = (p.memory.len(), p.waits.len());
    let state = if number % 2 == 1 {
        refused_gate_state(rng, words, entries)
    } else {
        gate_state(rng, words, entries)
    };
    let resets = if number % 5 == 2 {
        refused_resets(rng, 10)
    } else {
        resets(rng, &p, p.gate_start(state), 10)
    };
    if number % 10 == 9 {
        p.memory.clear();
    }
    if number % 10 == 4 {
        p.bottom = refused_bottom(rng, words);
    }
    verdict_case(&p.memory, p.bottom, &p.waits, &resets, &state)
}

/// A run from a program's position; every fourth is refused for its position, every
/// tenth for its bottom.
fn any_start(rng: &mut Rng, number: usize) -> String {
    let mut p = small(rng);
    if number % 4 == 3 {
        p.position = refused_position(rng, p.waits.len());
    }
    if number % 10 == 5 {
        p.bottom = refused_bottom(rng, p.memory.len());
    }
    start_case(&p.memory, p.bottom, &p.waits, p.position)
}

/// List positions before, at and past the end of short lists and of none.
fn positions() -> Vec<(Vec<u16>, u32)> {
    let mut positions = Vec::new();
    for entries in [0, 1, 2, 3, 5] {
        let waits = vec![1; entries as usize];
        let all = (0..=entries + 1).chain([65_536]);
        positions.extend(all.map(|position| (waits.clone(), position)));
    }
    positions
}

fn position_verdicts() -> Vec<String> {
    let case = |(waits, position): (Vec<u16>, u32)| {
        let state = GateState {
            position,
            ..GateState::default()
        };
        verdict_case(&[0], 0, &waits, &[], &state)
    };
    positions().into_iter().map(case).collect()
}

/// The last rows and the first past them, without an access and with one begun.
fn row_verdicts() -> Vec<String> {
    let mut cases = Vec::new();
    for row in [11, 12, 13, 255] {
        for (begun, left) in [(false, 0), (true, 1), (true, 0), (false, 1)] {
            let state = GateState {
                row,
                begun,
                left,
                ..GateState::default()
            };
            cases.push(verdict_case(&[0], 0, &[], &[], &state));
        }
    }
    cases
}

/// A good state and a bad one.
fn good_and_bad() -> [GateState; 2] {
    [0, 13].map(|row| GateState {
        row,
        ..GateState::default()
    })
}

/// No bottom, one word, all words and one more, also of an empty memory.
fn memories_and_bottoms() -> Vec<(Vec<u32>, u32)> {
    let mut boards = Vec::new();
    for memory in [vec![], vec![7, 8, 9]] {
        let length = memory.len() as u32;
        let mut bottoms = vec![0, 1, length, length + 1, u32::MAX];
        bottoms.sort();
        bottoms.dedup();
        boards.extend(bottoms.into_iter().map(|bottom| (memory.clone(), bottom)));
    }
    boards
}

/// 1 comes first, then 21, then 4.
fn bottom_verdicts() -> Vec<String> {
    let mut cases = Vec::new();
    for (memory, bottom) in memories_and_bottoms() {
        let case = |state| verdict_case(&memory, bottom, &[], &[], &state);
        cases.extend(good_and_bad().map(case));
    }
    cases
}

/// Lists that rise and lists that do not: 1 and 21 come first, then 22, then 4.
fn reset_verdicts() -> Vec<String> {
    let lists: [&[u64]; 8] = [
        &[0],
        &[0, 1, u64::MAX],
        &[0, 0],
        &[4, 3],
        &[3, 4, 4],
        &[3, 4, 5, 4, 9],
        &[u64::MAX, u64::MAX],
        &[5, u64::MAX, 6],
    ];
    let mut cases = Vec::new();
    for resets in lists {
        for state in good_and_bad() {
            cases.push(verdict_case(&[7], 1, &[2], resets, &state));
        }
        cases.push(verdict_case(&[], 0, &[], resets, &GateState::default()));
        cases.push(verdict_case(&[7], 2, &[], resets, &GateState::default()));
    }
    cases
}
