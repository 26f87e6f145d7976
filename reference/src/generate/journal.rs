//! Journals (CR 11) of few places and of more, and programs and traverses that fill them.

use super::bottom::bottom;
use super::flags;
use super::halting::halting_bits;
use super::looping::load;
use super::program::{data_word, encode, operand_of, Program};
use super::traverse::{traverse_case, TraverseCase};
use crate::file_run::file_run;
use crate::instruction::Operand;
use crate::machine::Machine;
use crate::rng::Rng;
use crate::traverse::traverse;

/// Journals of no pair, one and three, two of them with an odd place.
pub const FEW_PLACES: [usize; 5] = [0, 1, 2, 3, 7];

/// One instruction word in so many has an operand that may be missing, or halts.
const WORDS_PER_END: usize = 16;

/// The register that mostly points past the memory.
const ABSENT: u8 = 3;

/// Pairs that a file run of the program takes where there are enough.
pub fn pairs_of_program(program: &Program) -> usize {
    let Program {
        bottom,
        start,
        count,
        ..
    } = *program;
    let mut memory = program.memory.clone();
    // No more addresses than words.
    let mut journal = vec![0; 2 * memory.len()];
    file_run(&mut memory, bottom, &mut journal, start, count).pairs as usize
}

/// Pairs that the files take where there are enough and they share one journal.
pub fn pairs_of_traverse(case: &TraverseCase) -> usize {
    let mut memory = case.memory.clone();
    let mut journal = vec![0; 2 * memory.len()];
    let TraverseCase {
        bottom,
        words,
        files,
        start,
        ..
    } = case;
    let result = traverse(&mut memory, *bottom, &mut journal, words, files, *start, 2);
    result.pairs as usize
}

/// Places of a journal from which so many pairs are wanted: few, fewer than enough, a pair
/// or a place around enough, or more.
pub fn places(rng: &mut Rng, wanted: usize) -> usize {
    let enough = 2 * wanted;
    match rng.below(5) {
        0 => rng.pick(&FEW_PLACES),
        1 => rng.below(enough + 1),
        2 => enough.saturating_sub(rng.between(1, 2)),
        3 => enough + rng.below(3),
        _ => enough + rng.below(40),
    }
}

/// Turns of a few instructions, nearly all of which store to memory: to the same few
/// addresses, to new ones on each turn, or both. Some may meet a missing word or halt.
pub fn storing_program(rng: &mut Rng) -> Program {
    let body = rng.between(2, 14);
    let code = body + 2;
    let length = code + rng.between(4, 40);
    let modes = rng.pick(&[[1, 1, 1], [1, 2, 3], [3, 3, 1]]);
    let mut memory: Vec<u32> = (0..body).map(|_| storing_word(rng, &modes)).collect();
    // The word taken steps r0 up too, to 0.
    memory.extend([load(0), u32::MAX]);
    memory.extend((code..length).map(|_| data_word(rng, length)));
    let start = start(rng, code, length);
    Program {
        memory,
        bottom: bottom(rng, length, &start.registers),
        waits: Vec::new(),
        position: 0,
        start,
        count: rng.between(0, 80) as u32,
    }
}

/// B is in memory, where one of r4 to r7 points, in one of the modes.
fn storing_word(rng: &mut Rng, modes: &[usize; 3]) -> u32 {
    let a = match rng.below(4) {
        0 => operand_of(rng.pick(modes), rng.between(4, 7)),
        _ => Operand::Direct(rng.between(1, 2) as u8),
    };
    let b = operand_of(rng.pick(modes), rng.between(4, 7));
    match rng.below(3 * WORDS_PER_END) {
        0 => encode(rng, Operand::Indirect(ABSENT), b),
        1 => encode(rng, a, Operand::Indirect(ABSENT)),
        2 => encode(rng, a, b) | halting_bits(rng),
        3..=5 => encode(rng, a, Operand::Direct(1)),
        _ => encode(rng, a, b),
    }
}

/// Pointers into the data, now and then into the code.
fn start(rng: &mut Rng, code: usize, length: usize) -> Machine {
    let mut registers = [(); 8].map(|()| rng.between(code, length - 1) as u32);
    registers[0] = 0;
    registers[1] = rng.word();
    registers[2] = data_word(rng, length);
    if !rng.one_in(4) {
        registers[usize::from(ABSENT)] = rng.pick(&[length as u32, length as u32 + 1, u32::MAX]);
    }
    if rng.one_in(8) {
        registers[7] = rng.below(code) as u32;
    }
    Machine {
        registers,
        flags: flags(rng),
    }
}

/// Files on the memory of such a program, with a journal that may be too small for all of
/// them or for one.
pub fn storing_traverse_case(rng: &mut Rng) -> TraverseCase {
    let program = storing_program(rng);
    let mut case = traverse_case(rng, &program);
    case.places = traverse_places(rng, &case);
    case
}

/// As for the pairs of all files, or of one of them alone.
pub fn traverse_places(rng: &mut Rng, case: &TraverseCase) -> usize {
    let wanted = if case.files.is_empty() || rng.flag() {
        pairs_of_traverse(case)
    } else {
        let one = rng.below(case.files.len());
        pairs_of_traverse(&case.only(|number| number == one))
    };
    places(rng, wanted)
}
