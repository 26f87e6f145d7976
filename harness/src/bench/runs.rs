//! Interpreter and gate machine on programs that run on.

use super::measure::{best, time, Task};
use super::table::Table;
use super::workload::{
    generated, moves_loop, register_loop, stacking_above_bottom, stacking_loop,
    stacking_with_resets, Workload,
};
use super::Sizes;
use crate::baseline::{Contender, CONTENDERS};

pub fn interpreter(sizes: Sizes) -> Table {
    let mut rows = Vec::new();
    let plain = [register_loop(), stacking_loop(), generated()];
    let listed = plain.into_iter().flat_map(Workload::with_lists);
    for workload in listed.chain([stacking_above_bottom()]) {
        let mut tasks = CONTENDERS.each_ref().map(|contender| -> Task {
            let workload = workload.clone();
            Box::new(move || run(contender, &workload, sizes.instructions))
        });
        rows.push((workload.name.clone(), best(sizes.rounds, &mut tasks)));
    }
    Table {
        title: "Interpreter".into(),
        unit: "instruction",
        rows,
    }
}

fn run(contender: &Contender, workload: &Workload, count: u32) -> f64 {
    let (mut memory, mut machine) = (workload.memory.clone(), workload.machine);
    let mut result = [0; 3];
    time(u64::from(count), || {
        (contender.run)(
            &mut memory,
            workload.bottom,
            &workload.waits,
            0,
            &mut machine,
            count,
            &mut result,
        )
    })
}

pub fn gate_machine(sizes: Sizes) -> Table {
    let mut rows = Vec::new();
    let [stacking, long, short] = stacking_loop().with_lists();
    let plain = [register_loop(), stacking, moves_loop(), long, short];
    let resets = stacking_with_resets(sizes.clocks);
    for workload in plain.into_iter().chain([stacking_above_bottom(), resets]) {
        let mut tasks = CONTENDERS.each_ref().map(|contender| -> Task {
            let workload = workload.clone();
            Box::new(move || gate_run(contender, &workload, sizes.clocks, sizes.clocks))
        });
        rows.push((workload.name.clone(), best(sizes.rounds, &mut tasks)));
    }
    Table {
        title: "Gate machine".into(),
        unit: "clock",
        rows,
    }
}

/// Nanoseconds that so many clocks take for each of `units` units.
pub fn gate_run(contender: &Contender, workload: &Workload, clocks: u64, units: u64) -> f64 {
    let (mut memory, mut state) = (workload.memory.clone(), workload.state());
    let mut result = [0; 1];
    time(units, || {
        (contender.gate_run)(
            &mut memory,
            workload.bottom,
            &workload.waits,
            &workload.resets,
            &mut state,
            clocks,
            &mut result,
        )
    })
}
