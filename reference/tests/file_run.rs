//! The file run against the interpreter, its journal against the gate machine.

mod common;

use common::machine;
use reference::generate::program::{any_program, Program};
use reference::rng::Rng;
use reference::{file_run, gate_clock, run, Answer, FileAnswer, GateState};

const SENTINEL: u32 = 0x5A5A_5A5A;

/// Without waits, an instruction takes no more.
const MOST_CLOCKS: u32 = 11;

/// Address and former word of the first store to each address in the first `count`
/// instructions that is not below the bottom, as seen at row 9 of the gate machine. The
/// instructions' words must all be present.
fn stores(program: &Program, count: u32) -> Vec<u32> {
    let mut memory = program.memory.clone();
    let mut state = GateState::start(program.start);
    let mut journal: Vec<u32> = Vec::new();
    let mut finished = 0;
    for _ in 0..MOST_CLOCKS * count {
        if finished == u64::from(count) {
            break;
        }
        let noted = journal.chunks(2).any(|pair| pair[0] == state.address);
        if state.row == 9 && state.address >= program.bottom && !noted {
            journal.extend([state.address, memory[state.address as usize]]);
        }
        finished += gate_clock(&mut memory, program.bottom, &[], &mut state).unwrap();
    }
    assert_eq!(finished, u64::from(count));
    journal
}

/// Returns whether the file was undone.
fn check(program: &Program, spare: usize) -> bool {
    let mut run_memory = program.memory.clone();
    let due = run(
        &mut run_memory,
        program.bottom,
        &[],
        0,
        program.start,
        program.count,
    );
    let due_journal = stores(program, due.ran);

    let mut memory = program.memory.clone();
    let mut journal = vec![SENTINEL; 2 * program.count as usize + spare];
    let result = file_run(
        &mut memory,
        program.bottom,
        &mut journal,
        program.start,
        program.count,
    );
    assert_eq!(result.ran, due.ran);
    assert_eq!(2 * result.pairs as usize, due_journal.len());
    let (pairs, unused) = journal.split_at(due_journal.len());
    assert_eq!(pairs, due_journal);
    assert!(unused.iter().all(|&word| word == SENTINEL));
    if due.answer == Answer::Finished {
        assert_eq!(result.answer, FileAnswer::Finished);
        assert_eq!(result.machine, due.machine);
        assert_eq!(memory, run_memory);
        return false;
    }
    assert!(matches!(due.answer, Answer::Stopped(_)), "{program:X?}");
    assert_eq!(result.answer, FileAnswer::Undone);
    assert_eq!(result.machine, program.start);
    assert_eq!(memory, program.memory);
    true
}

#[test]
fn does_what_the_interpreter_does_or_undoes_it() {
    let mut rng = Rng::new(13);
    let mut undone = 0;
    for _ in 0..40_000 {
        let program = any_program(&mut rng);
        undone += u32::from(check(&program, rng.below(4)));
    }
    assert!((4_000..36_000).contains(&undone), "{undone}");
}

/// Two stores to one address: it is the word from before the first that is kept.
#[test]
fn an_address_stored_twice_goes_back_to_its_first_word() {
    // r1 to the word r2 points at, then r3 to it, then outside.
    let memory = vec![0x0000_0141, 0x0000_0143, 0x0000_000C, 0x77];
    let program = Program {
        memory,
        bottom: 0,
        waits: vec![],
        position: 0,
        start: machine(&[(1, 5), (2, 3), (3, 6), (4, 99)], "0000"),
        count: 9,
    };
    assert_eq!(stores(&program, 2), [3, 0x77]);
    assert!(check(&program, 0));
}

/// A store of the word that is already there is journaled too.
#[test]
fn a_store_of_an_equal_word_is_journaled() {
    let program = Program {
        memory: vec![0x0000_0339, 0, 7, 0],
        bottom: 0,
        waits: vec![],
        position: 0,
        start: machine(&[(1, 2)], "0000"),
        count: 1,
    };
    assert_eq!(stores(&program, 1), [2, 7]);
    assert!(!check(&program, 3));
}

#[test]
fn a_file_of_none_is_finished() {
    let start = machine(&[(0, 50)], "1111");
    let result = file_run(&mut [1, 2], 0, &mut [], start, 0);
    assert_eq!(
        (result.answer, result.machine),
        (FileAnswer::Finished, start)
    );
    assert_eq!((result.ran, result.pairs), (0, 0));
}
