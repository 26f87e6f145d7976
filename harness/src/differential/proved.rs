//! The outcomes of the proved calls.

use super::lent::{guard, Lent};
use super::outcome::Outcome;
use crate::words::{file_words, machine_words, state_words};
use fm8502::library::{self, MACHINE_SIZE};
use reference::generate::traverse::TraverseCase;
use reference::{GateState, Machine};

/// Everything that one call is lent.
struct Buffers {
    memory: Lent<u32>,
    words: Lent<u32>,
    result: Lent<u64>,
    journal: Lent<u32>,
    output: Lent<u8>,
}

impl Buffers {
    fn new(memory: &[u32], words: &[u32], places: usize) -> Buffers {
        Buffers {
            memory: Lent::new(memory),
            words: Lent::new(words),
            result: Lent::new(&vec![guard(); places]),
            journal: Lent::new(&[]),
            output: Lent::new(&[]),
        }
    }

    fn after(self, code: u32) -> Outcome {
        let guarded = self.memory.guarded()
            && self.words.guarded()
            && self.result.guarded()
            && self.journal.guarded()
            && self.output.guarded();
        Outcome {
            code,
            words: self.words.content(),
            result: self.result.content(),
            memory: self.memory.content(),
            journal: self.journal.content(),
            output: self.output.content(),
            strayed: !guarded,
        }
    }
}

pub fn run(
    memory: &[u32],
    bottom: u32,
    waits: &[u16],
    position: u32,
    machine: &Machine,
    count: u32,
) -> Outcome {
    run_on(
        memory,
        bottom,
        waits,
        position,
        &machine_words(machine),
        count,
    )
}

/// The machine is given in its words, so that a run can go on from the last one.
pub fn run_on(
    memory: &[u32],
    bottom: u32,
    waits: &[u16],
    position: u32,
    machine: &[u32],
    count: u32,
) -> Outcome {
    let mut lent = Buffers::new(memory, machine, 3);
    let code = library::run(
        lent.memory.slice(),
        bottom,
        waits,
        position,
        lent.words.slice(),
        count,
        lent.result.slice(),
    );
    lent.after(code)
}

/// The journal has `places` places.
pub fn file_run(
    memory: &[u32],
    bottom: u32,
    places: usize,
    machine: &Machine,
    count: u32,
) -> Outcome {
    let mut lent = Buffers::new(memory, &machine_words(machine), 2);
    lent.journal = Lent::new(&vec![guard(); places]);
    let code = library::file_run(
        lent.memory.slice(),
        bottom,
        lent.journal.slice(),
        lent.words.slice(),
        count,
        lent.result.slice(),
    );
    lent.after(code)
}

pub fn gate_run(
    memory: &[u32],
    bottom: u32,
    waits: &[u16],
    resets: &[u64],
    state: &GateState,
    clocks: u64,
) -> Outcome {
    gate_run_on(memory, bottom, waits, resets, &state_words(state), clocks)
}

/// The state is given in its words, so that a call can go on from the last one.
pub fn gate_run_on(
    memory: &[u32],
    bottom: u32,
    waits: &[u16],
    resets: &[u64],
    state: &[u32],
    clocks: u64,
) -> Outcome {
    let mut lent = Buffers::new(memory, state, 1);
    let code = library::gate_run(
        lent.memory.slice(),
        bottom,
        waits,
        resets,
        lent.words.slice(),
        clocks,
        lent.result.slice(),
    );
    lent.after(code)
}

/// The state in its words, as for [`gate_run_on`].
pub fn clock(memory: &[u32], bottom: u32, waits: &[u16], state: &[u32]) -> Outcome {
    let mut lent = Buffers::new(memory, state, 1);
    let code = library::clock(
        lent.memory.slice(),
        bottom,
        waits,
        lent.words.slice(),
        lent.result.slice(),
    );
    lent.after(code)
}

pub fn traverse(case: &TraverseCase) -> Outcome {
    let mut lent = Buffers::new(&case.memory, &machine_words(&case.start), 3);
    lent.journal = Lent::new(&vec![guard(); case.places]);
    let files = file_words(&case.files);
    let [mut words_lent, mut files_lent] = [&case.words, &files].map(|list| Lent::new(list));
    let code = library::traverse(
        lent.memory.slice(),
        case.bottom,
        lent.journal.slice(),
        words_lent.slice(),
        files_lent.slice(),
        lent.words.slice(),
        case.version,
        lent.result.slice(),
    );
    let stayed = words_lent.stayed(&case.words) && files_lent.stayed(&files);
    let mut outcome = lent.after(code);
    outcome.strayed |= !stayed;
    outcome
}

pub fn image_read(image: &[u8], memory: &[u32]) -> Outcome {
    let mut lent = Buffers::new(memory, &[guard(); MACHINE_SIZE], 2);
    let code = library::image_read(
        image,
        lent.memory.slice(),
        lent.words.slice(),
        lent.result.slice(),
    );
    lent.after(code)
}

/// The output has `room` bytes.
pub fn image_write(memory: &[u32], machine: &Machine, version: u32, room: usize) -> Outcome {
    let mut lent = Buffers::new(memory, &machine_words(machine), 1);
    lent.output = Lent::new(&vec![guard(); room]);
    let code = library::image_write(
        lent.memory.slice(),
        lent.words.slice(),
        version,
        lent.output.slice(),
        lent.result.slice(),
    );
    lent.after(code)
}
