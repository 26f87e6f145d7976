//! Stores spread over the longest memory (CR 11), up and down, in steps of 1 to 65,536 words
//! and to and fro, each address twice. An emulator may keep what it notes of addresses in
//! blocks of memory, so that the number of blocks touched goes through all its sizes.

use super::{expected, proved, Check};
use crate::words::compute;
use reference::generate::program::Program;
use reference::generate::traverse::TraverseCase;
use reference::refusal::MOST_WORDS;
use reference::{Machine, Operand, HALTING_BITS};
use Operand::{After, Direct, Indirect};

/// Operations.
const MOVE: u8 = 0;
const ADD: u8 = 3;
const DECREMENT: u8 = 5;
const AND: u8 = 13;

/// Permits for C, V, N, Z.
const NONE: [bool; 4] = [false; 4];
const ZERO: [bool; 4] = [false, false, false, true];

/// Words of the code; where a round begins, the constants in it and the words between them,
/// the turn, and the word after a round.
const CODE: u32 = 16;
const BEGIN: u32 = 0;
const CONSTANTS: u32 = 1;
const EACH_TURN: u32 = 6;
const AFTER_ROUND: u32 = 11;

/// Instructions before the turns, of each turn, and after them.
const LOADS: u32 = 3;
const TURN: u32 = 5;
const END: u32 = 1;

/// A block, which no emulator need have.
const BLOCK: u32 = 4_096;

/// Addresses of a round.
#[derive(Clone, Copy, Debug)]
struct Stride {
    first: u32,
    step: u32,
    turns: u32,
}

impl Stride {
    /// From the first word above the code, as far as the memory goes.
    fn up(words: u32, step: u32, most: u32) -> Stride {
        let turns = ((words - 1 - CODE) / step + 1).min(most);
        Stride {
            first: CODE,
            step,
            turns,
        }
    }

    /// From the last word.
    fn down(words: u32, step: u32, most: u32) -> Stride {
        Stride {
            first: words - 1,
            step: step.wrapping_neg(),
            turns: Stride::up(words, step, most).turns,
        }
    }

    /// Instructions of so many rounds.
    fn count(&self, rounds: u32) -> u32 {
        rounds * (LOADS + TURN * self.turns + END)
    }
}

/// Returns how many calls were compared.
pub fn check() -> Result<usize, String> {
    let longest = MOST_WORDS as u32;
    let mut calls = 0;
    for step in [1, 64, 1_024, BLOCK, 65_536] {
        for stride in [
            Stride::up(longest, step, 100_000),
            Stride::down(longest, step, 100_000),
        ] {
            calls += check_stride(longest, stride)?;
        }
    }
    // To and fro: an odd step, taken within the memory's 24 bits.
    let turns = 20_000;
    let scattered = Stride {
        first: longest / 3,
        step: 0x009E_3779,
        turns,
    };
    calls += check_stride(longest, scattered)?;
    calls += check_numbers_of_blocks()?;
    calls += check_files()?;
    Ok(calls)
}

/// Sets r4 to the turns, r2 to the first address and r3 to the step; adds r1 to the word at
/// r2, steps r2 on within the memory and counts, as long as turns are left; then begins
/// again.
fn program(words: u32, stride: Stride) -> Program {
    let mut memory = vec![compute(MOVE, NONE, After(0), Direct(4))];
    memory.extend(constants(&stride));
    memory.extend([
        compute(ADD, NONE, Direct(1), Indirect(2)),
        compute(ADD, NONE, Direct(3), Direct(2)),
        compute(AND, NONE, Direct(5), Direct(2)),
        compute(DECREMENT, ZERO, Direct(4), Direct(4)),
        // Moved if Z is 0.
        compute(4, NONE, Direct(6), Direct(0)) | 0x8000,
        compute(MOVE, NONE, Direct(7), Direct(0)),
    ]);
    memory.resize(CODE as usize, HALTING_BITS);
    memory.extend((CODE..words).map(|at| at.wrapping_mul(0x9E37_79B9)));
    let within = MOST_WORDS as u32 - 1;
    Program {
        memory,
        bottom: 0,
        waits: Vec::new(),
        position: 0,
        start: Machine {
            registers: [BEGIN, 7, 0, 0, 0, within, EACH_TURN, BEGIN],
            ..Machine::default()
        },
        count: stride.count(2),
    }
}

/// The words after the first: the turns, the first address and the step, each but the last
/// with the load of the next after it.
fn constants(stride: &Stride) -> [u32; 5] {
    let [load_r2, load_r3] = [2, 3].map(|to| compute(MOVE, NONE, After(0), Direct(to)));
    [stride.turns, load_r2, stride.first, load_r3, stride.step]
}

/// Two rounds, of which the second needs no pair more: enough pairs, one fewer, half of
/// them, and more.
fn check_stride(words: u32, stride: Stride) -> Result<usize, String> {
    let mut program = program(words, stride);
    program.bottom = CODE;
    let enough = 2 * stride.turns as usize;
    let journals = [enough, enough - 1, stride.turns as usize, enough + 1_001];
    for places in journals {
        compare(&program, places)?;
    }
    Ok(journals.len())
}

/// Without printing the memory.
fn compare(program: &Program, places: usize) -> Check {
    let Program {
        memory,
        bottom,
        start,
        count,
        ..
    } = program;
    let proved = proved::file_run(memory, *bottom, places, start, *count);
    let expected = expected::file_run(memory, *bottom, places, start, *count);
    if proved == expected {
        return Ok(());
    }
    let words = memory.len();
    let [due, came] = [expected, proved].map(|outcome| (outcome.code, outcome.result));
    Err(format!(
        "file run differs on a memory of {words} words, {} turns from {:X} by {:X}, journal of \
         {places} places: expected {due:?}, proved {came:?}\n",
        memory[1], memory[3], memory[5]
    ))
}

/// One address in each of so many blocks, around each power of two.
fn check_numbers_of_blocks() -> Result<usize, String> {
    let mut calls = 0;
    for power in 0..12 {
        for blocks in (1_u32 << power) - 1..=(1 << power) + 1 {
            let words = BLOCK * blocks + CODE + 1;
            let stride = Stride::up(words, BLOCK, u32::MAX);
            calls += check_stride(words, stride)?;
        }
    }
    Ok(calls)
}

/// Files that go over the same blocks and over others: alone, and with one among them that
/// does the round before it again and then halts.
fn check_files() -> Result<usize, String> {
    let mut calls = 0;
    for words in [1 << 16, 1 << 20] {
        let ups = [1, 64, 1_000, BLOCK].map(|step| Stride::up(words, step, 5_000));
        let downs = [BLOCK, 64].map(|step| Stride::down(words, step, 5_000));
        let strides = [&ups[..], &downs].concat();
        for halting in [None, Some(1), Some(4)] {
            let mut case = TraverseCase::of_none(&program(words, strides[0]), 1);
            for (number, stride) in strides.iter().enumerate() {
                if halting == Some(number) {
                    case.push(AFTER_ROUND, &[HALTING_BITS], BEGIN, 1 << 20);
                }
                case.push(CONSTANTS, &constants(stride), BEGIN, stride.count(1));
            }
            calls += check_rules(&mut case)?;
        }
    }
    Ok(calls)
}

/// Under both rules, with journals for one round, for several and for all.
fn check_rules(case: &mut TraverseCase) -> Result<usize, String> {
    // The longest round has 5,000 addresses and 5 words.
    let journals = [2, 1_001, 10_009, 10_010, 16_000, 30_000, 200_000];
    for places in journals {
        case.places = places;
        for version in [1, 2] {
            case.version = version;
            let [proved, expected] = [proved::traverse(case), expected::traverse(case)];
            if proved != expected {
                let [due, came] = [expected, proved].map(|outcome| (outcome.code, outcome.result));
                return Err(format!(
                    "traverse differs on a memory of {} words, version {version}, journal of \
                     {places} places: expected {due:?}, proved {came:?}\n{:?}\n",
                    case.memory.len(),
                    case.files
                ));
            }
        }
    }
    Ok(2 * journals.len())
}
