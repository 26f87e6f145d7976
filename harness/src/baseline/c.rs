//! The baselines in C. They have the library's calls without the lengths that the
//! library checks, and refuse nothing.

use super::gate_unit::Answer;

mod raw {
    extern "C" {
        pub fn baseline_run(
            memory: *mut u32,
            memory_words: usize,
            bottom: u32,
            waits: *const u16,
            waits_entries: usize,
            position: u32,
            machine: *mut u32,
            count: u32,
            result: *mut u64,
        ) -> u32;
        pub fn baseline_file_run(
            memory: *mut u32,
            memory_words: usize,
            bottom: u32,
            journal: *mut u32,
            journal_places: usize,
            machine: *mut u32,
            count: u32,
            result: *mut u64,
        ) -> u32;
        pub fn baseline_traverse(
            memory: *mut u32,
            memory_words: usize,
            bottom: u32,
            journal: *mut u32,
            journal_places: usize,
            words: *const u32,
            files: *const u32,
            files_places: usize,
            machine: *mut u32,
            version: u32,
            result: *mut u64,
        ) -> u32;
        pub fn baseline_gate_run(
            memory: *mut u32,
            memory_words: usize,
            bottom: u32,
            waits: *const u16,
            waits_entries: usize,
            resets: *const u64,
            resets_numbers: usize,
            state: *mut u32,
            clocks: u64,
            result: *mut u64,
        ) -> u32;
        pub fn baseline_image_read(
            bytes: *const u8,
            bytes_length: usize,
            memory: *mut u32,
            machine: *mut u32,
            result: *mut u64,
        ) -> u32;
        pub fn baseline_image_write(
            memory: *const u32,
            memory_words: usize,
            machine: *const u32,
            version: u32,
            out: *mut u8,
            result: *mut u64,
        ) -> u32;
        pub fn gate_unit_with(
            by_halves: bool,
            operation: u32,
            a: u32,
            b: u32,
            carry: bool,
            carry_out: *mut bool,
            overflow: *mut bool,
        ) -> u32;
    }
}

// Safety of all calls: the slices are borrowed for the call, and the bench lends
// what the baselines expect without checking it: a machine of 12 words or a
// state of 21, enough result places, enough room for journal and output, list
// positions within their lists, reset lists that rise, and good traverses and images
// only.

pub fn run(
    memory: &mut [u32],
    bottom: u32,
    waits: &[u16],
    position: u32,
    machine: &mut [u32],
    count: u32,
    result: &mut [u64],
) -> u32 {
    unsafe {
        raw::baseline_run(
            memory.as_mut_ptr(),
            memory.len(),
            bottom,
            waits.as_ptr(),
            waits.len(),
            position,
            machine.as_mut_ptr(),
            count,
            result.as_mut_ptr(),
        )
    }
}

pub fn file_run(
    memory: &mut [u32],
    bottom: u32,
    journal: &mut [u32],
    machine: &mut [u32],
    count: u32,
    result: &mut [u64],
) -> u32 {
    unsafe {
        raw::baseline_file_run(
            memory.as_mut_ptr(),
            memory.len(),
            bottom,
            journal.as_mut_ptr(),
            journal.len(),
            machine.as_mut_ptr(),
            count,
            result.as_mut_ptr(),
        )
    }
}

#[allow(clippy::too_many_arguments)] // As many as the library has.
pub fn traverse(
    memory: &mut [u32],
    bottom: u32,
    journal: &mut [u32],
    words: &[u32],
    files: &[u32],
    machine: &mut [u32],
    version: u32,
    result: &mut [u64],
) -> u32 {
    unsafe {
        raw::baseline_traverse(
            memory.as_mut_ptr(),
            memory.len(),
            bottom,
            journal.as_mut_ptr(),
            journal.len(),
            words.as_ptr(),
            files.as_ptr(),
            files.len(),
            machine.as_mut_ptr(),
            version,
            result.as_mut_ptr(),
        )
    }
}

pub fn gate_run(
    memory: &mut [u32],
    bottom: u32,
    waits: &[u16],
    resets: &[u64],
    state: &mut [u32],
    clocks: u64,
    result: &mut [u64],
) -> u32 {
    unsafe {
        raw::baseline_gate_run(
            memory.as_mut_ptr(),
            memory.len(),
            bottom,
            waits.as_ptr(),
            waits.len(),
            resets.as_ptr(),
            resets.len(),
            state.as_mut_ptr(),
            clocks,
            result.as_mut_ptr(),
        )
    }
}

pub fn image_read(
    bytes: &[u8],
    memory: &mut [u32],
    machine: &mut [u32],
    result: &mut [u64],
) -> u32 {
    unsafe {
        raw::baseline_image_read(
            bytes.as_ptr(),
            bytes.len(),
            memory.as_mut_ptr(),
            machine.as_mut_ptr(),
            result.as_mut_ptr(),
        )
    }
}

pub fn image_write(
    memory: &[u32],
    machine: &[u32],
    version: u32,
    out: &mut [u8],
    result: &mut [u64],
) -> u32 {
    unsafe {
        raw::baseline_image_write(
            memory.as_ptr(),
            memory.len(),
            machine.as_ptr(),
            version,
            out.as_mut_ptr(),
            result.as_mut_ptr(),
        )
    }
}

pub fn gate_unit(by_halves: bool, operation: u32, a: u32, b: u32, carry: bool) -> Answer {
    let (mut out, mut overflow) = (false, false);
    let word =
        unsafe { raw::gate_unit_with(by_halves, operation, a, b, carry, &mut out, &mut overflow) };
    (word, out, overflow)
}
