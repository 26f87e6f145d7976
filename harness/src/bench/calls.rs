//! What a call of the library costs besides its work.

use super::measure::{best, time, Task};
use super::table::{heading, row};
use super::workload::{register_loop, Workload};
use super::Sizes;
use fm8502::library;
use fm8502::{GateState, Machine};

pub fn calls(sizes: Sizes) {
    let names = [
        "run of 0 instructions, words",
        "run of 0 instructions, safe call",
        "run of 1 instruction, safe call",
        "gate run of 0 clocks, safe call",
        "one clock, words",
        "one clock, safe call",
        "one clock within a gate run",
    ];
    let calls = sizes.calls;
    let mut tasks: [Task; 7] = [
        Box::new(|| run_words(calls)),
        Box::new(|| run_safe(calls, 0)),
        Box::new(|| run_safe(calls, 1)),
        Box::new(|| gate_safe(calls, 0)),
        Box::new(|| clock_words(calls)),
        Box::new(|| clock_safe(calls)),
        Box::new(|| gate_safe(1, calls) / calls as f64),
    ];
    let times = best(sizes.rounds, &mut tasks);
    println!("\n### Library calls (register loop)\n");
    heading("call", ["ns".to_string()].into_iter());
    for (name, time) in names.iter().zip(times) {
        row(name, [format!("{time:.1}")].into_iter());
    }
}

fn start(workload: &Workload) -> Machine {
    let mut registers = [0; 8];
    registers.copy_from_slice(&workload.machine[..8]);
    Machine {
        registers,
        ..Machine::default()
    }
}

fn run_words(calls: u64) -> f64 {
    let Workload {
        mut memory,
        mut machine,
        ..
    } = register_loop();
    let mut result = [0; 3];
    time(calls, || {
        for _ in 0..calls {
            library::run(&mut memory, 0, &[], 0, &mut machine, 0, &mut result);
        }
    })
}

fn run_safe(calls: u64, count: u32) -> f64 {
    let mut workload = register_loop();
    let mut machine = start(&workload);
    time(calls, || {
        for _ in 0..calls {
            fm8502::run(&mut workload.memory, 0, &[], 0, &mut machine, count).expect("accepted");
        }
    })
}

fn gate_safe(calls: u64, clocks: u64) -> f64 {
    let mut workload = register_loop();
    let mut state = GateState::start(start(&workload));
    let memory = &mut workload.memory;
    time(calls, || {
        for _ in 0..calls {
            fm8502::gate_run(memory, 0, &[], &[], &mut state, clocks).expect("accepted");
        }
    })
}

fn clock_words(calls: u64) -> f64 {
    let mut workload = register_loop();
    let mut state = workload.state();
    let mut result = [0; 1];
    time(calls, || {
        for _ in 0..calls {
            library::clock(&mut workload.memory, 0, &[], &mut state, &mut result);
        }
    })
}

fn clock_safe(calls: u64) -> f64 {
    let mut workload = register_loop();
    let mut state = GateState::start(start(&workload));
    time(calls, || {
        for _ in 0..calls {
            fm8502::clock(&mut workload.memory, 0, &[], &mut state).expect("accepted");
        }
    })
}
