//! The archive's calls on plain words; each returns its code as it is.
//!
//! A slice passes as its pointer and its length. Nothing checks these
//! declarations against the archive, so they stand in one place.
//!
//! A code that has no name here is the papers' refusal. After it and after
//! [`MISFIT`] everything lent is as it was.

pub use crate::traverse::FILE_SIZE;
pub use crate::words::{MACHINE_SIZE, STATE_SIZE};

/// Carried out.
pub const DONE: u32 = 0;
/// Carried out, and stopped at a missing word; of a file run, or a traverse under
/// rule 2, undone.
pub const STOPPED: u32 = 100;
/// Carried out, and stopped at a word that is no instruction; [`run`] alone.
pub const HALTED: u32 = 101;
/// Carried out, and stopped before a store that needs one address more than the journal
/// has pairs: of a file run, or a traverse under rule 2.
pub const JOURNAL_FULL: u32 = 102;
/// A machine, state, result or files of another length.
pub const MISFIT: u32 = 200;

mod raw {
    extern "C" {
        pub fn fm8502_run(
            memory: *mut u32,
            memory_words: usize,
            bottom: u32,
            waits: *const u16,
            waits_entries: usize,
            position: u32,
            machine: *mut u32,
            machine_words: usize,
            count: u32,
            result: *mut u64,
            result_places: usize,
        ) -> u32;
        pub fn fm8502_file_run(
            memory: *mut u32,
            memory_words: usize,
            bottom: u32,
            journal: *mut u32,
            journal_places: usize,
            machine: *mut u32,
            machine_words: usize,
            count: u32,
            result: *mut u64,
            result_places: usize,
        ) -> u32;
        pub fn fm8502_traverse(
            memory: *mut u32,
            memory_words: usize,
            bottom: u32,
            journal: *mut u32,
            journal_places: usize,
            words: *const u32,
            words_length: usize,
            files: *const u32,
            files_places: usize,
            machine: *mut u32,
            machine_words: usize,
            version: u32,
            result: *mut u64,
            result_places: usize,
        ) -> u32;
        pub fn fm8502_gate_run(
            memory: *mut u32,
            memory_words: usize,
            bottom: u32,
            waits: *const u16,
            waits_entries: usize,
            resets: *const u64,
            resets_numbers: usize,
            state: *mut u32,
            state_words: usize,
            clocks: u64,
            result: *mut u64,
            result_places: usize,
        ) -> u32;
        pub fn fm8502_clock(
            memory: *mut u32,
            memory_words: usize,
            bottom: u32,
            waits: *const u16,
            waits_entries: usize,
            state: *mut u32,
            state_words: usize,
            result: *mut u64,
            result_places: usize,
        ) -> u32;
        pub fn fm8502_image_read(
            bytes: *const u8,
            bytes_length: usize,
            memory: *mut u32,
            memory_words: usize,
            machine: *mut u32,
            machine_words: usize,
            result: *mut u64,
            result_places: usize,
        ) -> u32;
        pub fn fm8502_image_write(
            memory: *const u32,
            memory_words: usize,
            machine: *const u32,
            machine_words: usize,
            version: u32,
            out: *mut u8,
            out_length: usize,
            result: *mut u64,
            result_places: usize,
        ) -> u32;
    }
}

// Safety of all calls: pointer and length are those of one slice that is
// borrowed for the call, mutably where the library may write, and the library
// is proved to stay within them.

/// `position`: of the first entry of `waits` to take. `machine`: [`MACHINE_SIZE`] words,
/// r0 to r7, C, V, N, Z. `result`: instructions that ran, clock total, position after.
pub fn run(
    memory: &mut [u32],
    bottom: u32,
    waits: &[u16],
    position: u32,
    machine: &mut [u32],
    count: u32,
    result: &mut [u64],
) -> u32 {
    unsafe {
        raw::fm8502_run(
            memory.as_mut_ptr(),
            memory.len(),
            bottom,
            waits.as_ptr(),
            waits.len(),
            position,
            machine.as_mut_ptr(),
            machine.len(),
            count,
            result.as_mut_ptr(),
            result.len(),
        )
    }
}

/// `machine` as for [`run`]. `result`: instructions that ran, journal pairs. Takes some
/// 200 KiB of the stack, as [`traverse`] does.
pub fn file_run(
    memory: &mut [u32],
    bottom: u32,
    journal: &mut [u32],
    machine: &mut [u32],
    count: u32,
    result: &mut [u64],
) -> u32 {
    unsafe {
        raw::fm8502_file_run(
            memory.as_mut_ptr(),
            memory.len(),
            bottom,
            journal.as_mut_ptr(),
            journal.len(),
            machine.as_mut_ptr(),
            machine.len(),
            count,
            result.as_mut_ptr(),
            result.len(),
        )
    }
}

/// `files`: [`FILE_SIZE`] places to a file, its place, number of words, entry and count.
/// `words`: the files' words, one file's behind the other's. `machine` as for [`run`].
/// `result`: under rule 1 the undone files as bits, under rule 2 the number of the undone
/// file, and 0 where all finished; instructions that ran in the last file run; journal
/// pairs.
#[allow(clippy::too_many_arguments)] // the library's own
pub fn traverse(
    memory: &mut [u32],
    bottom: u32,
    journal: &mut [u32],
    words: &[u32],
    files: &[u32],
    machine: &mut [u32],
    version: u32,
    result: &mut [u64],
) -> u32 {
    unsafe {
        raw::fm8502_traverse(
            memory.as_mut_ptr(),
            memory.len(),
            bottom,
            journal.as_mut_ptr(),
            journal.len(),
            words.as_ptr(),
            words.len(),
            files.as_ptr(),
            files.len(),
            machine.as_mut_ptr(),
            machine.len(),
            version,
            result.as_mut_ptr(),
            result.len(),
        )
    }
}

/// `state`: [`STATE_SIZE`] words, the machine's, row, instruction, address, a, b,
/// result, list position, whether an access has begun, its clocks left. `resets`: the
/// numbers of the reset clocks. `result`: instructions finished.
pub fn gate_run(
    memory: &mut [u32],
    bottom: u32,
    waits: &[u16],
    resets: &[u64],
    state: &mut [u32],
    clocks: u64,
    result: &mut [u64],
) -> u32 {
    unsafe {
        raw::fm8502_gate_run(
            memory.as_mut_ptr(),
            memory.len(),
            bottom,
            waits.as_ptr(),
            waits.len(),
            resets.as_ptr(),
            resets.len(),
            state.as_mut_ptr(),
            state.len(),
            clocks,
            result.as_mut_ptr(),
            result.len(),
        )
    }
}

/// As [`gate_run`] of one clock without resets.
pub fn clock(
    memory: &mut [u32],
    bottom: u32,
    waits: &[u16],
    state: &mut [u32],
    result: &mut [u64],
) -> u32 {
    unsafe {
        raw::fm8502_clock(
            memory.as_mut_ptr(),
            memory.len(),
            bottom,
            waits.as_ptr(),
            waits.len(),
            state.as_mut_ptr(),
            state.len(),
            result.as_mut_ptr(),
            result.len(),
        )
    }
}

/// `result`: the number of words loaded, the version.
pub fn image_read(
    bytes: &[u8],
    memory: &mut [u32],
    machine: &mut [u32],
    result: &mut [u64],
) -> u32 {
    unsafe {
        raw::fm8502_image_read(
            bytes.as_ptr(),
            bytes.len(),
            memory.as_mut_ptr(),
            memory.len(),
            machine.as_mut_ptr(),
            machine.len(),
            result.as_mut_ptr(),
            result.len(),
        )
    }
}

/// `result`: the size of the image.
pub fn image_write(
    memory: &[u32],
    machine: &[u32],
    version: u32,
    out: &mut [u8],
    result: &mut [u64],
) -> u32 {
    unsafe {
        raw::fm8502_image_write(
            memory.as_ptr(),
            memory.len(),
            machine.as_ptr(),
            machine.len(),
            version,
            out.as_mut_ptr(),
            out.len(),
            result.as_mut_ptr(),
            result.len(),
        )
    }
}
