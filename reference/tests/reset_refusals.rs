//! Reason 22 of document 02, CR 7: the reset list does not rise strictly. It comes after
//! 3 and before 4.

use reference::generate::resets::refused_resets;
use reference::generate::state::gate_state;
use reference::rng::Rng;
use reference::{gate_run, GateState};

/// The number for a run of so many clocks; memory and state must then stay.
fn refusal(
    lent: &[u32],
    bottom: u32,
    waits: &[u16],
    resets: &[u64],
    state: GateState,
    clocks: u64,
) -> Option<u8> {
    let mut memory = lent.to_vec();
    let result = gate_run(&mut memory, bottom, waits, resets, state, clocks);
    let refusal = result.answer.err()?;
    assert_eq!((result.state, result.finished), (state, 0));
    assert_eq!(memory, lent);
    Some(refusal.number())
}

/// Of a good state in row 2 and one word.
fn of_list(resets: &[u64], clocks: u64) -> Option<u8> {
    let state = GateState {
        row: 2,
        ..GateState::default()
    };
    refusal(&[7], 1, &[3], resets, state, clocks)
}

#[test]
fn lists_that_rise_are_taken() {
    let lists = [
        &[][..],
        &[0],
        &[u64::MAX],
        &[0, 1],
        &[0, u64::MAX],
        &[5, 6, 9, 1 << 40],
        &[u64::MAX - 1, u64::MAX],
    ];
    for list in lists {
        for clocks in [0, 1, 6, 100] {
            assert_eq!(of_list(list, clocks), None, "{list:?}");
        }
    }
}

/// Equal neighbours and falling ones, at the front, in the middle and at the end; the
/// numbers are within the run, on both sides of its end, or past it.
#[test]
fn lists_that_do_not_rise_are_refused() {
    let lists = [
        &[0, 0][..],
        &[1, 0],
        &[7, 7, 8, 9],
        &[7, 8, 8, 9],
        &[7, 8, 9, 9],
        &[8, 7, 9, 10],
        &[7, 9, 8, 10],
        &[7, 8, 10, 9],
        &[1, 2, 3, 1],
        &[u64::MAX, u64::MAX],
        &[u64::MAX, 0],
        &[0, u64::MAX, u64::MAX],
        &[0, u64::MAX, u64::MAX - 1],
    ];
    for list in lists {
        for clocks in [0, 1, 8, 100, u64::MAX] {
            assert_eq!(of_list(list, clocks), Some(22), "{list:?}");
        }
    }
}

#[test]
fn one_fault_in_a_long_list() {
    let rising: Vec<u64> = (0..100_000).map(|number| 3 * number).collect();
    assert_eq!(of_list(&rising, 50), None);
    for at in [1, 2, 50_000, 99_998, 99_999] {
        for less in [0, 1] {
            let mut list = rising.clone();
            list[at] = list[at - 1] - less.min(list[at - 1]);
            assert_eq!(of_list(&list, 50), Some(22), "{at}");
        }
    }
}

#[test]
fn generated_lists() {
    let mut rng = Rng::new(80);
    for _ in 0..5_000 {
        let clocks = rng.below(60) as u64;
        let list = refused_resets(&mut rng, clocks);
        let state = gate_state(&mut rng, 4, 2);
        let refused = refusal(&[7; 4], 4, &[1, 2], &list, state, clocks);
        assert_eq!(refused, Some(22), "{list:?}");
    }
}

/// 1, 2, 21 and 3 come first, 4 last.
#[test]
fn the_order_of_the_reasons() {
    let long_list = vec![0; 65_537];
    let bad = GateState {
        row: 13,
        position: u32::MAX,
        ..GateState::default()
    };
    let good = GateState::default();
    let too_long = vec![0; 16_777_217];
    for state in [good, bad] {
        for list in [&[4, 4][..], &[4, 3]] {
            let refusal = |memory, bottom, waits| refusal(memory, bottom, waits, list, state, 3);
            assert_eq!(refusal(&[], 1, &long_list), Some(1));
            assert_eq!(refusal(&too_long, u32::MAX, &long_list), Some(2));
            assert_eq!(refusal(&[7], 2, &long_list), Some(21));
            assert_eq!(refusal(&[7], 1, &long_list), Some(3));
            assert_eq!(refusal(&[7], 1, &long_list[1..]), Some(22));
        }
        let rising = refusal(&[7], 1, &[], &[3, 4], state, 3);
        assert_eq!(rising, if state == bad { Some(4) } else { None });
    }
}
