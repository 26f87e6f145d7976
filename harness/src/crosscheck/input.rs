//! A case as the words of the program's input.

use super::Case;
use crate::case_words::{flag_number, latch_words};
use reference::GateState;

pub fn input(cases: &[Case]) -> Vec<u8> {
    let mut words = Vec::new();
    for case in cases {
        words.push(1);
        put_case(&mut words, case);
    }
    words.iter().flat_map(|word| word.to_le_bytes()).collect()
}

fn put_case(words: &mut Vec<u32>, case: &Case) {
    put_list(words, &case.memory);
    words.push(case.bottom);
    put_list(words, &case.waits);
    put_state(words, &case.state);
    words.push(case.clocks as u32);
}

fn put_list<T: Copy + Into<u32>>(words: &mut Vec<u32>, list: &[T]) {
    words.push(list.len() as u32);
    words.extend(list.iter().map(|&entry| entry.into()));
}

fn put_state(words: &mut Vec<u32>, state: &GateState) {
    words.extend(state.registers);
    words.push(flag_number(state.flags));
    words.extend(latch_words(state));
}
