//! What a reset of the gate machine costs (CR 7).

use super::measure::{best, Task};
use super::runs::gate_run;
use super::table::Table;
use super::workload::{halting_with_resets, reset_on_every_clock, Workload};
use super::Sizes;
use crate::baseline::CONTENDERS;

/// Clocks of a run that is reset far apart.
pub const FAR: u64 = 1 << 62;

/// Far apart, with what the machine does until it halts, and on every clock.
pub fn resets(sizes: Sizes) -> Table {
    let far = halting_with_resets(sizes.resets, FAR);
    let every = reset_on_every_clock(sizes.resets);
    Table {
        title: format!("{} resets", sizes.resets),
        unit: "reset",
        rows: vec![row(sizes, far, FAR), row(sizes, every, sizes.resets)],
    }
}

fn row(sizes: Sizes, workload: Workload, clocks: u64) -> (String, Vec<f64>) {
    let mut tasks = CONTENDERS.each_ref().map(|contender| -> Task {
        Box::new(|| gate_run(contender, &workload, clocks, sizes.resets))
    });
    // A round takes long, so that there are fewer than of the runs.
    let times = best(sizes.rounds.div_ceil(20), &mut tasks);
    (workload.name.clone(), times)
}
