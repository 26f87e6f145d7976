//! Writing and reading a long image.

use super::measure::{best, time, Task};
use super::table::Table;
use super::Sizes;
use crate::baseline::{Contender, CONTENDERS};
use fm8502::library::MACHINE_SIZE;
use reference::image::image_size;
use reference::rng::Rng;
use std::cell::RefCell;

/// What all contenders write and read, one after the other.
struct Buffers {
    memory: Vec<u32>,
    image: Vec<u8>,
}

pub fn images(sizes: Sizes) -> Table {
    let mut rng = Rng::new(5);
    let buffers = RefCell::new(Buffers {
        memory: (0..sizes.words).map(|_| rng.word()).collect(),
        image: vec![0; image_size(sizes.words)],
    });
    // A round takes long, so that there are fewer than of the runs.
    let rounds = sizes.rounds.div_ceil(20);
    let mut writes = CONTENDERS
        .each_ref()
        .map(|contender| -> Task { Box::new(|| write(contender, &mut buffers.borrow_mut())) });
    let written = best(rounds, &mut writes);
    let mut reads = CONTENDERS
        .each_ref()
        .map(|contender| -> Task { Box::new(|| read(contender, &mut buffers.borrow_mut())) });
    let loaded = best(rounds, &mut reads);
    Table {
        title: format!("Images of {} words", sizes.words),
        unit: "word",
        rows: vec![("write".into(), written), ("read".into(), loaded)],
    }
}

fn write(contender: &Contender, buffers: &mut Buffers) -> f64 {
    let Buffers { memory, image } = buffers;
    time(memory.len() as u64, || {
        (contender.image_write)(memory, &[0; MACHINE_SIZE], 2, image, &mut [0])
    })
}

fn read(contender: &Contender, buffers: &mut Buffers) -> f64 {
    let Buffers { memory, image } = buffers;
    time(memory.len() as u64, || {
        (contender.image_read)(image, memory, &mut [0; MACHINE_SIZE], &mut [0; 2])
    })
}
