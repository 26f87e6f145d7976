//! File runs against plain runs of the same length, finished and undone.

use super::against::{Against, Pair};
use super::measure::{time, Task};
use super::workload::{
    generated, register_loop, stacking_above_bottom, stacking_loop, stacking_outside, Workload,
};
use super::Sizes;
use crate::baseline::{Contender, CONTENDERS};
use std::cell::RefCell;

/// Instructions of each file, with a pair for each of them.
const COUNT: u32 = 65_536;

/// The file runs, and plain runs of the same programs.
pub fn file_runs(sizes: Sizes) -> Against {
    let rows = [
        ("finished", register_loop()),
        ("finished", stacking_loop()),
        ("finished", generated()),
        ("undone", stacking_outside()),
        ("finished", stacking_above_bottom()),
    ];
    let pairs = rows.iter();
    Against::new(
        "File run",
        pairs.map(|(ending, workload)| measure(sizes, ending, workload)),
    )
}

fn measure(sizes: Sizes, ending: &str, workload: &Workload) -> Pair {
    let mut journal = vec![1; 2 * COUNT as usize];
    let journal = RefCell::new(&mut journal[..]);
    let files = CONTENDERS.iter().map(|contender| -> Task {
        let journal = &journal;
        Box::new(move || file_run(contender, workload, &mut journal.borrow_mut()))
    });
    let plain = CONTENDERS
        .iter()
        .map(|contender| -> Task { Box::new(move || plain_run(contender, workload)) });
    let name = format!("{}, {ending}", workload.name);
    Pair::measure(name, sizes.rounds, files, plain)
}

fn file_run(contender: &Contender, workload: &Workload, journal: &mut [u32]) -> f64 {
    let (mut memory, mut machine) = (workload.memory.clone(), workload.machine);
    let mut result = [0; 2];
    let all = time(1, || {
        (contender.file_run)(
            &mut memory,
            workload.bottom,
            journal,
            &mut machine,
            COUNT,
            &mut result,
        )
    });
    all / result[0] as f64
}

/// It stops where the file run is undone, so that both run as many instructions.
fn plain_run(contender: &Contender, workload: &Workload) -> f64 {
    let (mut memory, mut machine) = (workload.memory.clone(), workload.machine);
    let mut result = [0; 3];
    let all = time(1, || {
        (contender.run)(
            &mut memory,
            workload.bottom,
            &[],
            0,
            &mut machine,
            COUNT,
            &mut result,
        )
    });
    all / result[0] as f64
}
