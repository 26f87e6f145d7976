//! The input of the test program `crosscheck` and what it must print.
//!
//! Input: crates/crosscheck/src/main.rt has its format, with the name k.
//!
//! Output: a line for each case, of items with single spaces; words are 8 capital
//! hexadecimal digits, flags four digits in the order C, V, N, Z, other numbers
//! decimal:
//!
//! `lent ANSWER finished cvnz r0..r7 row instruction address a b result position begun left m0..`
//!
//! after k single clocks, each on the state and memory that the last one left.
//! ANSWER is the last clock's, `ran` or `refused N`, or `ran` if k is 0; a refused
//! clock leaves the state and the memory as they were, and finishes nothing.
//!
//! `unit result cvnz result cvnz`
//!
//! by the arithmetic unit with the ripple adder, then with the adder by halves; and
//!
//! `ran result cvnz`
//!
//! after a sequence of operations with one of them.

pub mod cases;
pub mod input;
pub mod output;
pub mod units;

use reference::GateState;

pub struct Case {
    memory: Vec<u32>,
    bottom: u32,
    waits: Vec<u16>,
    state: GateState,
    clocks: u64,
}
