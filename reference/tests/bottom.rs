//! Document 02, CR 6: a store below the bottom is acknowledged with its usual waits and
//! alters nothing.

mod common;

use common::{check_agreement, machine, OUTSIDE};
use reference::generate::program::{any_program, Program};
use reference::generate::state::gate_state;
use reference::rng::Rng;
use reference::{file_run, gate_clock, gate_run, run};
use reference::{Answer, FileAnswer, Flags, GateState, Instruction, Machine, Operand, Refusal};

/// Adds 1 to r3: 9 clocks.
const INCREMENT: u32 = 0x0001_0063;

/// Where the stores go, in a memory of 8 words.
const ADDRESS: u32 = 5;
const LENGTH: u32 = 8;

/// B as a memory operand on r2, with r2 before the instruction and after it.
const MEMORY_OPERANDS: [(Operand, u32, u32); 3] = [
    (Operand::Indirect(2), ADDRESS, ADDRESS),
    (Operand::Before(2), ADDRESS + 1, ADDRESS),
    (Operand::After(2), ADDRESS, ADDRESS + 1),
];

/// Adds r1 to B and sets all flags.
fn add_r1(b: Operand) -> u32 {
    let instruction = Instruction {
        a: Operand::Direct(1),
        b,
        permit: Flags::from_array([true; 4]),
        is_move: false,
        operation: 3,
    };
    instruction.encode()
}

/// -50 onto the 50 at the address, then an increment of r3.
fn store(b: Operand, r2: u32) -> (Vec<u32>, Machine) {
    let mut memory = vec![add_r1(b), INCREMENT, 0, 0, 0, 0, 0, 0];
    memory[ADDRESS as usize] = 50;
    let start = machine(&[(1, 50_u32.wrapping_neg()), (2, r2)], "0110");
    (memory, start)
}

/// As it was, with 0 at the address if it is not below the bottom.
fn stored(mut memory: Vec<u32>, bottom: u32) -> Vec<u32> {
    if bottom <= ADDRESS {
        memory[ADDRESS as usize] = 0;
    }
    memory
}

/// Fetch, B and the store take the first three entries, the next fetch the fourth.
#[test]
fn the_interpreter_gives_a_store_below_its_clocks_flags_and_steps() {
    for (b, before, after) in MEMORY_OPERANDS {
        for bottom in 0..=LENGTH {
            let (lent, start) = store(b, before);
            let mut memory = lent.clone();
            let result = run(&mut memory, bottom, &[1, 2, 3, 7], 0, start, 2);
            assert_eq!((result.answer, result.ran), (Answer::Finished, 2));
            assert_eq!(result.clocks, 10 + 1 + 2 + 3 + 9 + 7);
            let registers = [(0, 2), (1, start.registers[1]), (2, after), (3, 1)];
            assert_eq!(result.machine, machine(&registers, "1001"));
            assert_eq!(memory, stored(lent, bottom), "{b:?}, bottom {bottom}");
        }
    }
}

/// On every clock the state is the one that a machine without a bottom has; the word
/// changes on the clock on which the row is done, or not at all.
#[test]
fn the_gate_machine_gives_a_store_below_its_rows_and_waits() {
    let waits = [1, 2, 3, 7];
    // Rows 0 to 3, 5 to 7 and 9, with the three waits.
    let done = 8 + 1 + 2 + 3;
    for (b, before, _) in MEMORY_OPERANDS {
        for bottom in 0..=LENGTH {
            let (lent, start) = store(b, before);
            let (mut memory, mut free_memory) = (lent.clone(), lent.clone());
            let mut state = GateState::start(start);
            let mut free = state;
            for clock in 1..=32 {
                let finished = gate_clock(&mut memory, bottom, &waits, &mut state);
                let due = gate_clock(&mut free_memory, 0, &waits, &mut free);
                assert_eq!((finished, state), (due, free), "clock {clock}");
                let due = if clock < done {
                    &lent
                } else {
                    &stored(lent.clone(), bottom)
                };
                assert_eq!(&memory, due, "{b:?}, bottom {bottom}, clock {clock}");
            }
            let registers = state.registers;
            assert_eq!((state.row, registers[0], registers[3]), (0, 2, 1));
        }
    }
}

/// A register has no bottom.
#[test]
fn a_store_to_a_register_is_done() {
    for bottom in 0..=LENGTH {
        let (lent, start) = store(Operand::Direct(2), ADDRESS);
        let mut memory = lent.clone();
        let result = run(&mut memory, bottom, &[1, 2], 0, start, 1);
        assert_eq!((result.clocks, result.ran), (9 + 1, 1));
        let sum = ADDRESS.wrapping_sub(50);
        assert_eq!(result.machine.registers[2], sum);
        let state = gate_run(
            &mut memory,
            bottom,
            &[1, 2],
            &[],
            GateState::start(start),
            10,
        )
        .state;
        assert_eq!((state.machine(), state.row), (result.machine, 0));
        assert_eq!(memory, lent);
    }
}

/// Nothing is stored, so that no access and no clock is added below the bottom either.
#[test]
fn a_failed_condition_has_no_store_below() {
    // Move r1 to (r2) if C, with C 0.
    let start = machine(&[(1, 9), (2, ADDRESS)], "0000");
    for bottom in [0, ADDRESS, LENGTH] {
        let mut memory = vec![0x0001_8141, INCREMENT, 0, 0, 0, 50, 0, 0];
        let result = run(&mut memory, bottom, &[1, 2, 3], 0, start, 2);
        assert_eq!((result.ran, result.clocks), (2, 9 + 1 + 2 + 9 + 3));
        assert_eq!(memory[ADDRESS as usize], 50);
    }
}

/// Fetched, taken as A and taken as B, all of it below the bottom.
#[test]
fn words_below_are_read_as_ever() {
    // add (r2),r1; add r1,(r2): the flags show B's word.
    let lent = [0x0003_3C2A, add_r1(Operand::Indirect(2)), 0x1234_5678];
    let start = machine(&[(1, 1), (2, 2)], "0000");
    for bottom in 0..=3 {
        let mut memory = lent;
        let result = run(&mut memory, bottom, &[], 0, start, 2);
        assert_eq!((result.answer, result.ran), (Answer::Finished, 2));
        assert_eq!(result.machine.registers[1], 0x1234_5679);
        assert_eq!(result.machine.flags, Flags::default());
        let word = if bottom == 3 { lent[2] } else { 0x2468_ACF1 };
        assert_eq!(memory[2], word);
    }
}

/// Two stores to each of two words, the first below, then a missing word.
fn four_stores() -> ([u32; 7], Machine) {
    let [at_r2, at_r3] = [2, 3].map(|register| add_r1(Operand::Indirect(register)));
    let outside = add_r1(Operand::Indirect(4));
    let memory = [at_r2, at_r3, at_r2, at_r3, outside, 50, 60];
    (memory, machine(&[(1, 7), (2, 5), (3, 6), (4, 99)], "1111"))
}

#[test]
fn a_store_below_is_not_journaled_and_takes_no_number() {
    let (lent, start) = four_stores();
    // How many pairs, the journal, and the two words afterwards.
    let dues = [
        (5, 2, [5, 50, 6, 60, 9, 9, 9, 9], [64, 74]),
        (6, 1, [6, 60, 9, 9, 9, 9, 9, 9], [50, 74]),
        (7, 0, [9; 8], [50, 60]),
    ];
    for (bottom, pairs, due_journal, words) in dues {
        let (mut memory, mut journal) = (lent, [9; 8]);
        let result = file_run(&mut memory, bottom, &mut journal, start, 4);
        assert_eq!(result.answer, FileAnswer::Finished);
        assert_eq!((result.ran, result.pairs), (4, pairs));
        assert_eq!((journal, &memory[5..]), (due_journal, &words[..]));

        let (mut memory, mut journal) = (lent, [9; 10]);
        let result = file_run(&mut memory, bottom, &mut journal, start, 5);
        assert_eq!(result.answer, FileAnswer::Undone);
        assert_eq!((result.ran, result.pairs), (4, pairs));
        assert_eq!((memory, result.machine), (lent, start));
        assert_eq!(
            (&journal[..8], &journal[8..]),
            (&due_journal[..], &[9, 9][..])
        );
    }
}

/// What each call answers for a memory of two words and this bottom.
fn answers(bottom: u32) -> [Option<Refusal>; 4] {
    let start = machine(&[(1, 5)], "0000");
    let lent = [add_r1(Operand::Indirect(0)), 7];
    let (mut memory, mut journal) = (lent, [9; 2]);
    let ran = run(&mut memory, bottom, &[], 0, start, 1);
    let filed = file_run(&mut memory, bottom, &mut journal, start, 1);
    let gates = gate_run(&mut memory, bottom, &[], &[], GateState::start(start), 10);
    let mut state = GateState::start(start);
    let clock = gate_clock(&mut memory, bottom, &[], &mut state);
    assert_eq!((memory, journal), (lent, [9; 2]));
    let of_run = match ran.answer {
        Answer::Refused(refusal) => Some(refusal),
        _ => None,
    };
    let of_file = match filed.answer {
        FileAnswer::Refused(refusal) => Some(refusal),
        _ => None,
    };
    [of_run, of_file, gates.answer.err(), clock.err()]
}

/// The store goes to word 1, below either of these bottoms.
#[test]
fn the_whole_memory_may_be_fixed_and_no_more() {
    assert_eq!(answers(2), [None; 4]);
    for bottom in [3, 4, 1 << 31, u32::MAX] {
        assert_eq!(answers(bottom), [Some(Refusal::BottomTooHigh); 4]);
    }
}

/// Any latches; past the memory nothing is acknowledged, whatever the bottom.
#[test]
fn row_9_of_a_lent_state() {
    let mut rng = Rng::new(61);
    for address in (0..LENGTH + 2).chain([u32::MAX]) {
        for bottom in 0..=LENGTH {
            for (begun, left) in [(false, 0), (true, 1), (true, 2)] {
                let lent = GateState {
                    row: 9,
                    address,
                    begun,
                    left,
                    ..gate_state(&mut rng, LENGTH as usize, 3)
                };
                check_row_9(lent, bottom, [2, 0, 1]);
            }
        }
    }
}

fn check_row_9(lent: GateState, bottom: u32, waits: [u16; 3]) {
    let words = [70, 71, 72, 73, 74, 75, 76, 77];
    let wait = if lent.begun {
        lent.left - 1
    } else {
        waits[lent.position as usize]
    };
    let mut due = words;
    if (bottom..LENGTH).contains(&lent.address) {
        due[lent.address as usize] = lent.result;
    }
    let after = |clocks| {
        let mut memory = words;
        let state = gate_run(&mut memory, bottom, &waits, &[], lent, clocks).state;
        (state, memory)
    };
    let clocks = u64::from(wait) + 1;
    assert_eq!(after(clocks - 1).1, words);
    let (state, memory) = after(clocks);
    assert_eq!(memory, due, "{lent:?}, bottom {bottom}");
    if lent.address >= LENGTH {
        return assert_eq!(state, lent);
    }
    let position = (lent.position + u32::from(!lent.begun)) % 3;
    let due = GateState {
        row: 10,
        position,
        begun: false,
        left: 0,
        ..lent
    };
    assert_eq!(state, due);
}

/// Demand 3 with each bottom that the memory can have.
#[test]
fn marks_are_equal_exactly_at_the_clock_total_with_every_bottom() {
    let mut rng = Rng::new(62);
    for _ in 0..400 {
        let mut program = any_program(&mut rng);
        let latches = gate_state(&mut rng, program.memory.len(), program.waits.len());
        for bottom in 0..=program.memory.len() as u32 {
            program.bottom = bottom;
            check_agreement(&program, latches, 20);
        }
    }
}

/// What the three kinds of run return and leave.
fn outcomes(program: &Program) -> impl PartialEq + std::fmt::Debug {
    let Program {
        memory: lent,
        bottom,
        waits,
        position,
        start,
        count,
    } = program;
    let [mut memory, mut file_memory, mut gate_memory] = [(); 3].map(|()| lent.clone());
    let mut journal = vec![9; 2 * *count as usize];
    let ran = run(&mut memory, *bottom, waits, *position, *start, *count);
    let filed = file_run(&mut file_memory, *bottom, &mut journal, *start, *count);
    let state = program.gate_start(GateState::default());
    let gates = gate_run(&mut gate_memory, *bottom, waits, &[], state, ran.clocks);
    for memory in [&memory, &file_memory, &gate_memory] {
        let fixed = *bottom as usize;
        assert_eq!(memory[..fixed], lent[..fixed], "{program:X?}");
    }
    (
        (ran, memory),
        (filed, file_memory, journal),
        (gates, gate_memory),
    )
}

/// The journal shows every address stored to, so that a store below always makes a
/// difference.
#[test]
fn stores_below_and_nothing_else_make_a_difference() {
    let mut rng = Rng::new(63);
    let (mut alike, mut different) = (0, 0);
    for _ in 0..20_000 {
        let program = any_program(&mut rng);
        let free = Program {
            bottom: 0,
            ..program.clone()
        };
        let stores_below = program.stores_below_bottom() > 0;
        let differs = outcomes(&program) != outcomes(&free);
        assert_eq!(differs, stores_below, "{program:X?}");
        different += u32::from(differs);
        alike += u32::from(!differs && program.bottom > 0);
    }
    assert!(alike > 4_000 && different > 4_000, "{alike} {different}");
}

/// The store to the next word is below, so that the old word runs.
#[test]
fn a_program_cannot_change_what_runs_below() {
    let halting = INCREMENT | 1 << 14;
    let start = machine(&[(1, halting), (2, 1)], "0000");
    // move r1,(r2)
    let lent = [0x0000_0141, INCREMENT];
    for (bottom, ran) in [(0, 1), (1, 1), (2, 2)] {
        let mut memory = lent;
        let result = run(&mut memory, bottom, &[], 0, start, 3);
        assert_eq!(result.ran, ran);
        assert_eq!(result.answer == OUTSIDE, bottom == 2);
        assert_eq!(memory[1] == INCREMENT, bottom == 2);
    }
}
