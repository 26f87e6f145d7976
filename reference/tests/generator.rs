//! That the generated programs reach what they are meant to reach.

mod common;

use common::{HALTING, NO_INSTRUCTION};
use reference::generate::bottom::refused_bottom;
use reference::generate::looping::looping_program;
use reference::generate::program::{any_program, program, Kind, Program};
use reference::generate::resets::{refused_resets, resets};
use reference::generate::state::{gate_state, refused_gate_state};
use reference::rng::Rng;
use reference::{file_run, gate_run, is_instruction, run, step};
use reference::{Answer, GateState, Instruction, Operand, Stop};
use std::collections::{HashMap, HashSet};

/// What the instructions that really ran had in them.
#[derive(Default)]
struct Seen {
    /// Move bit, operation and both modes.
    forms: HashSet<(bool, u8, u32, u32)>,
    /// Condition and whether it held.
    conditions: HashSet<(u8, bool)>,
    permits: HashSet<[bool; 4]>,
    /// Mode of an operand on r0, and whether it was A.
    program_counter: HashSet<(u32, bool)>,
    /// Modes of two operands on one register.
    one_register: HashSet<(u32, u32)>,
    /// Words run after the program itself had stored them.
    self_modified: usize,
    /// Of those, the ones that had been no instruction at the start.
    repaired: usize,
    /// Words that halted the card after the program itself had stored them.
    stored_halting: usize,
}

fn mode(operand: Operand) -> u32 {
    operand.encode() >> 3
}

impl Seen {
    fn record(&mut self, word: u32, flags: reference::Flags) {
        let instruction = Instruction::decode(word);
        let Instruction { a, b, .. } = instruction;
        let (mode_a, mode_b) = (mode(a), mode(b));
        let operation = instruction.operation;
        self.forms
            .insert((instruction.is_move, operation, mode_a, mode_b));
        if instruction.is_move {
            let holds = instruction.stores(flags);
            self.conditions.insert((operation, holds));
        }
        self.permits.insert(instruction.permit.to_array());
        if a.register() == 0 {
            self.program_counter.insert((mode_a, true));
        }
        if b.register() == 0 {
            self.program_counter.insert((mode_b, false));
        }
        if a.register() == b.register() {
            self.one_register.insert((mode_a, mode_b));
        }
    }

    fn run(&mut self, program: &Program) {
        let mut memory = program.memory.clone();
        let mut machine = program.start;
        let mut stored = HashSet::new();
        for _ in 0..program.count {
            let (pc, flags) = (machine.registers[0], machine.flags);
            let word = memory.get(pc as usize).copied();
            let modified = usize::from(stored.contains(&pc));
            let step = match step(&mut memory, program.bottom, &mut machine) {
                Ok(step) => step,
                Err(Stop::NoInstruction) => return self.stored_halting += modified,
                Err(Stop::Outside) => return,
            };
            self.record(word.unwrap(), flags);
            self.self_modified += modified;
            self.repaired += usize::from(!is_instruction(program.memory[pc as usize]));
            stored.extend(step.stored.map(|(address, _)| address));
        }
    }
}

#[test]
fn all_forms_of_instructions_run() {
    let mut rng = Rng::new(14);
    let mut seen = Seen::default();
    for _ in 0..20_000 {
        seen.run(&any_program(&mut rng));
    }
    assert_eq!(seen.forms.len(), 2 * 16 * 16);
    assert_eq!(seen.conditions.len(), 2 * 8 + 8);
    assert_eq!(seen.permits.len(), 16);
    assert_eq!(seen.program_counter.len(), 8);
    assert_eq!(seen.one_register.len(), 16);
    assert!(seen.self_modified > 1_000, "{}", seen.self_modified);
    assert!(seen.repaired > 30, "{}", seen.repaired);
    assert!(seen.stored_halting > 50, "{}", seen.stored_halting);
}

/// The word at which a run ended, and its result's answer and count.
fn ending(program: &Program) -> (Option<u32>, Answer, u32) {
    let mut memory = program.memory.clone();
    let result = run(
        &mut memory,
        program.bottom,
        &program.waits,
        program.position,
        program.start,
        program.count,
    );
    let r0 = result.machine.registers[0] as usize;
    (memory.get(r0).copied(), result.answer, result.ran)
}

#[test]
fn every_kind_of_ending_turns_up() {
    let mut rng = Rng::new(35);
    let mut times = HashMap::new();
    for _ in 0..10_000 {
        let (_, answer, ran) = ending(&any_program(&mut rng));
        *times.entry((format!("{answer:?}"), ran > 0)).or_insert(0) += 1;
    }
    assert_eq!(times.len(), 6, "{times:?}");
    assert!(times.values().all(|&times| times > 200), "{times:?}");
}

/// Each alone, and all of them in words with several.
#[test]
fn every_halting_bit_turns_up() {
    let mut rng = Rng::new(36);
    let mut alone = HashSet::new();
    let mut together = 0;
    for _ in 0..10_000 {
        if let (Some(word), NO_INSTRUCTION, _) = ending(&any_program(&mut rng)) {
            let bits = HALTING.map(|bit| word & bit);
            match bits.iter().filter(|&&bit| bit > 0).count() {
                1 => drop(alone.insert(bits)),
                _ => together |= word,
            }
        }
    }
    assert_eq!(alone.len(), HALTING.len());
    assert!(HALTING.iter().all(|bit| together & bit > 0));
}

/// Of the words that are meant to be instructions, about one in thirty is none.
#[test]
fn few_words_halt() {
    let mut rng = Rng::new(37);
    for kind in [
        Kind::SelfModifying,
        Kind::OneRegister,
        Kind::Uniform,
        Kind::Wild,
    ] {
        let programs: Vec<Program> = (0..2_000).map(|_| program(&mut rng, kind)).collect();
        let words: Vec<u32> = programs.into_iter().flat_map(|p| p.memory).collect();
        let halting = words.iter().filter(|&&word| !is_instruction(word)).count();
        let per_halting = words.len() / halting;
        assert!((25..=35).contains(&per_halting), "{kind:?}: {per_halting}");
    }
}

/// About half of them to their end.
#[test]
fn programs_run_on() {
    let mut rng = Rng::new(15);
    let (mut finished, mut ran) = (0, 0);
    for _ in 0..10_000 {
        let (_, answer, instructions) = ending(&any_program(&mut rng));
        finished += u32::from(answer == Answer::Finished);
        ran += instructions;
    }
    assert!((4_000..6_000).contains(&finished), "{finished}");
    assert!(ran > 50_000, "{ran}");
}

#[test]
fn gate_states_stand_in_every_row() {
    let mut rng = Rng::new(40);
    let rows: HashSet<u8> = (0..1_000).map(|_| gate_state(&mut rng, 4, 4).row).collect();
    assert_eq!(rows, (0..=12).collect());
    let mut refused = HashSet::new();
    for _ in 0..1_000 {
        let state = refused_gate_state(&mut rng, 4, 4);
        refused.insert((state.row, state.begun));
    }
    for state in [(12, false), (12, true), (13, false)] {
        assert!(refused.contains(&state), "{state:?}");
    }
}

#[test]
fn wait_lists_are_absent_short_and_long() {
    let mut rng = Rng::new(16);
    let mut seen = [0; 4];
    for _ in 0..2_000 {
        let program = program(&mut rng, Kind::Tame);
        let entries = program.waits.len();
        seen[0] += usize::from(entries == 0);
        seen[1] += usize::from(entries > 0 && entries < program.count as usize);
        seen[2] += usize::from(entries > 4 * program.count as usize);
        seen[3] += usize::from(program.waits.iter().any(|&wait| wait > 1_000));
    }
    assert!(seen.iter().all(|&times| times > 0), "{seen:?}");
}

#[test]
fn runs_start_at_the_first_entry_the_last_and_between() {
    let mut rng = Rng::new(81);
    let mut times = [0; 3];
    for _ in 0..2_000 {
        let program = any_program(&mut rng);
        let (position, entries) = (program.position as usize, program.waits.len());
        assert!(position < entries.max(1));
        let between = position > 0 && position + 1 < entries;
        let kinds = [position == 0, position + 1 == entries, between];
        for (times, kind) in times.iter_mut().zip(kinds) {
            *times += usize::from(kind);
        }
    }
    assert!(times.iter().all(|&times| times > 300), "{times:?}");
}

/// What the resets of generated lists cut off.
#[derive(Default)]
struct Cuts {
    /// Rows, with whether an access had begun and whether it was complete on that clock.
    states: HashSet<(u8, bool, bool)>,
    /// None; on the first clock; on the last; at the end; past it; several in a row.
    borders: [usize; 6],
}

impl Cuts {
    fn record(&mut self, resets: &[u64], clocks: u64) {
        let has = |number: u64| resets.contains(&number);
        let kinds = [
            resets.is_empty(),
            has(0),
            clocks > 0 && has(clocks - 1),
            has(clocks),
            resets.iter().any(|&number| number > clocks),
            resets.windows(3).any(|three| three[0] + 2 == three[2]),
        ];
        for (times, kind) in self.borders.iter_mut().zip(kinds) {
            *times += usize::from(kind);
        }
    }

    /// Goes through the run of so many clocks.
    fn run(&mut self, program: &Program, start: GateState, resets: &[u64], clocks: u64) {
        let (mut memory, mut state) = (program.memory.clone(), start);
        for number in 0..clocks {
            let held: &[u64] = if resets.contains(&number) { &[0] } else { &[] };
            if !held.is_empty() {
                self.states
                    .insert((state.row, state.begun, state.left == 1));
            }
            let (bottom, waits) = (program.bottom, &program.waits);
            state = gate_run(&mut memory, bottom, waits, held, state, 1).state;
        }
    }
}

/// In each row, on first clocks, during waits and on their last clocks.
#[test]
fn resets_cut_everything_off() {
    let mut rng = Rng::new(82);
    let mut cuts = Cuts::default();
    for _ in 0..5_000 {
        let program = any_program(&mut rng);
        let latches = gate_state(&mut rng, program.memory.len(), program.waits.len());
        let start = program.gate_start(latches);
        let clocks = rng.between(0, 120) as u64;
        let resets = resets(&mut rng, &program, start, clocks);
        assert!(resets.windows(2).all(|pair| pair[0] < pair[1]));
        cuts.record(&resets, clocks);
        cuts.run(&program, start, &resets, clocks);
    }
    // Thirteen rows without an access begun, and four with one, at its end or before it.
    assert_eq!(cuts.states.len(), 13 + 2 * 4, "{:?}", cuts.states);
    let borders = cuts.borders;
    assert!(borders.iter().all(|&times| times > 300), "{borders:?}");
}

/// Within the run and past it.
#[test]
fn refused_resets_do_not_rise() {
    let mut rng = Rng::new(83);
    let (mut equal, mut falling, mut past) = (0, 0, 0);
    for _ in 0..1_000 {
        let resets = refused_resets(&mut rng, 50);
        equal += u32::from(resets.windows(2).any(|pair| pair[0] == pair[1]));
        falling += u32::from(resets.windows(2).any(|pair| pair[0] > pair[1]));
        past += u32::from(resets.iter().all(|&number| number > 50));
    }
    assert_eq!(equal + falling, 1_000);
    assert!(equal > 300 && falling > 300, "{equal} {falling}");
    assert!((300..800).contains(&past), "{past}");
}

#[test]
fn bottoms_are_none_few_some_and_all_words() {
    let mut rng = Rng::new(64);
    let mut times = [0; 4];
    for _ in 0..10_000 {
        let program = any_program(&mut rng);
        let (bottom, length) = (program.bottom as usize, program.memory.len());
        assert!(bottom <= length);
        times[0] += usize::from(bottom == 0);
        times[1] += usize::from((1..5).contains(&bottom));
        times[2] += usize::from((5..length).contains(&bottom));
        times[3] += usize::from(bottom == length);
    }
    assert!(times.iter().all(|&times| times > 1_000), "{times:?}");
    let past: HashSet<u32> = (0..100).map(|_| refused_bottom(&mut rng, 7)).collect();
    assert!(past.iter().all(|&bottom| bottom > 7));
    assert!(past.contains(&8) && past.contains(&u32::MAX));
}

/// How many stores of its run are below its bottom, and how many pairs its journal has.
fn stores(program: &Program) -> [usize; 2] {
    let Program {
        bottom,
        start,
        count,
        ..
    } = *program;
    let mut journal = vec![0; 2 * count as usize];
    let ran = file_run(
        &mut program.memory.clone(),
        bottom,
        &mut journal,
        start,
        count,
    );
    [program.stores_below_bottom(), ran.pairs as usize]
}

/// A good part of the programs, and stores on both sides of many a bottom.
#[test]
fn programs_store_below_their_bottoms() {
    let mut rng = Rng::new(65);
    let (mut below, mut both) = (0, 0);
    for _ in 0..10_000 {
        let program = any_program(&mut rng);
        let stores = stores(&program);
        below += usize::from(stores[0] > 0);
        both += usize::from(stores.iter().all(|&stores| stores > 0));
    }
    assert!(below > 2_000, "{below}");
    assert!(both > 500, "{both}");
    let looping: Vec<Program> = (0..200).map(|_| looping_program(&mut rng)).collect();
    let below = |program: &&Program| program.stores_below_bottom() > 0;
    let below = looping.iter().filter(below).count();
    assert!((20..80).contains(&below), "{below}");
}

#[test]
fn one_seed_gives_the_same_programs_again() {
    let programs = |seed| {
        let mut rng = Rng::new(seed);
        (0..50).map(|_| any_program(&mut rng)).collect::<Vec<_>>()
    };
    assert_eq!(programs(17), programs(17));
    assert_ne!(programs(17), programs(18));
}

/// Some halt, after nearly as many instructions as the others.
#[test]
fn looping_programs_never_leave_memory() {
    let mut rng = Rng::new(15);
    let mut halted = 0;
    for _ in 0..200 {
        let program = looping_program(&mut rng);
        let (_, answer, ran) = ending(&program);
        match answer {
            NO_INSTRUCTION => halted += 1,
            answer => assert_eq!((answer, ran), (Answer::Finished, program.count)),
        }
        assert!(ran > 1_900, "{ran}");
    }
    assert!((30..70).contains(&halted), "{halted}");
}
