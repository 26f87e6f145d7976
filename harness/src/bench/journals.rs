//! File runs that store to the same addresses again and again (CR 11): to few and to many,
//! side by side and all over the longest memory, against plain runs of the same programs.

use super::against::{Against, Pair};
use super::measure::{best, time, Task};
use super::table::Table;
use super::workload::{stacking_loop, storing_loop, Workload};
use super::Sizes;
use crate::baseline::{Contender, CONTENDERS};
use fm8502::library::MACHINE_SIZE;
use std::cell::RefCell;

/// Instructions of a run: 100,000 addresses have four stores each.
pub const COUNT: u32 = 1_200_000;

/// A round takes long, so that there are fewer than of the short runs.
const ROUNDS_PER_ROUND: u64 = 5;

/// The reference copies the memory in each call, so that it has fewer of them.
const CALLS_PER_COPY: u64 = 500;

/// Addresses and the words from one to the next.
const SPREADS: [(u32, u32); 7] = [
    (100, 1),
    (1_000, 1),
    (10_000, 1),
    (100_000, 1),
    (1_000, 4_096),
    (4_095, 4_096),
    (16_383, 1_024),
];

/// The programs, each with the pairs that its file run needs.
pub fn measured() -> impl Iterator<Item = (Workload, usize)> {
    let storing = SPREADS.into_iter().map(|(addresses, step)| {
        let workload = storing_loop(addresses, step);
        (workload, addresses as usize)
    });
    [(stacking_loop(), 4_096)].into_iter().chain(storing)
}

/// The file runs, and plain runs of the same programs.
pub fn journals(sizes: Sizes) -> Against {
    let pairs = measured().map(|(workload, pairs)| measure(sizes, workload, pairs));
    Against::new("Journal of distinct addresses", pairs)
}

/// The runs take turns on one memory, as a copy would take longer than they do; each begins
/// again at its first address.
fn measure(sizes: Sizes, workload: Workload, pairs: usize) -> Pair {
    let lent = RefCell::new((workload.memory, vec![1; 2 * pairs]));
    let machine = workload.machine;
    let files = CONTENDERS.iter().map(|contender| -> Task {
        let lent = &lent;
        Box::new(move || {
            let (memory, journal) = &mut *lent.borrow_mut();
            file_run(contender, memory, journal, machine)
        })
    });
    let plain = CONTENDERS.iter().map(|contender| -> Task {
        let lent = &lent;
        Box::new(move || plain_run(contender, &mut lent.borrow_mut().0, machine))
    });
    let rounds = sizes.rounds.div_ceil(ROUNDS_PER_ROUND);
    Pair::measure(workload.name, rounds, files, plain)
}

fn file_run(
    contender: &Contender,
    memory: &mut [u32],
    journal: &mut [u32],
    mut machine: [u32; MACHINE_SIZE],
) -> f64 {
    let mut result = [0; 2];
    let all = time(u64::from(COUNT), || {
        (contender.file_run)(memory, 0, journal, &mut machine, COUNT, &mut result)
    });
    let due = [u64::from(COUNT), journal.len() as u64 / 2];
    assert_eq!(result, due, "{}", contender.name);
    all
}

fn plain_run(contender: &Contender, memory: &mut [u32], mut machine: [u32; MACHINE_SIZE]) -> f64 {
    let mut result = [0; 3];
    time(u64::from(COUNT), || {
        (contender.run)(memory, 0, &[], 0, &mut machine, COUNT, &mut result)
    })
}

/// What a file run costs besides its instructions, on the longest memory.
pub fn calls(sizes: Sizes) -> Table {
    let Workload {
        memory, machine, ..
    } = storing_loop(1, 1);
    let lent = RefCell::new(memory);
    let row = |(count, name): (u32, &str)| {
        let mut tasks = CONTENDERS.each_ref().map(|contender| -> Task {
            let lent = &lent;
            let calls = match contender.name {
                "reference" => sizes.calls.div_ceil(CALLS_PER_COPY),
                _ => sizes.calls,
            };
            Box::new(move || call(contender, &mut lent.borrow_mut(), machine, count, calls))
        });
        let rounds = sizes.rounds.div_ceil(ROUNDS_PER_ROUND);
        (name.into(), best(rounds, &mut tasks))
    };
    Table {
        title: "File runs of few instructions, longest memory".into(),
        unit: "call",
        rows: [
            (0, "no instruction"),
            (3, "three instructions, one of which stores"),
        ]
        .map(row)
        .into(),
    }
}

fn call(
    contender: &Contender,
    memory: &mut [u32],
    machine: [u32; MACHINE_SIZE],
    count: u32,
    calls: u64,
) -> f64 {
    let (mut journal, mut result) = ([1; 2], [0; 2]);
    time(calls, || {
        for _ in 0..calls {
            let mut machine = machine;
            (contender.file_run)(memory, 0, &mut journal, &mut machine, count, &mut result);
        }
    })
}
