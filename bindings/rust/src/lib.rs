//! Safe calls of the proved FM8502 emulator.
//!
//! Every call takes what it is lent as slices, refuses bad input with the
//! papers' number, and leaves everything lent as it was when it refuses.
//!
//! Every run takes the memory's `bottom`: how many words at its front hold the
//! board's loader, at most its length. A store to one of them takes its clocks and
//! waits and alters nothing, and the journal does not note it. With 0 every word
//! can be stored to.

pub mod library;
mod refused;
mod rule;
mod traverse;
mod words;

pub use refused::Refused;
pub use rule::Rule;
pub use traverse::{journal_places, traverse, File, Traverse, Undone};
use words::MACHINE_SIZE;
pub use words::{Flags, GateState, Machine};

/// How an interpreter run ended.
#[derive(Clone, Copy, Debug, PartialEq, Eq)]
pub struct Run {
    /// False: it stopped before an instruction that does not run.
    pub finished: bool,
    /// True: it stopped because the next word is no instruction. False where it
    /// finished, or the next instruction needs a word that memory does not have.
    pub halted: bool,
    pub ran: u32,
    /// Clock total of the instructions that ran, their waits included.
    pub clocks: u64,
    /// List position after the instructions that ran, for a run that goes on.
    pub position: u32,
}

/// How a file run ended.
#[derive(Clone, Copy, Debug, PartialEq, Eq)]
pub struct FileRun {
    /// False: it stopped, and memory and machine are those of its start.
    pub finished: bool,
    /// True: it stopped because a store needed one address more than the journal has
    /// pairs. False where it finished, or stopped as a run does.
    pub full: bool,
    pub ran: u32,
    /// Pairs of address and former word in the journal.
    pub pairs: u32,
}

/// The code of a call that was carried out.
fn carried_out(code: u32) -> Result<u32, Refused> {
    match code {
        library::DONE | library::STOPPED | library::HALTED | library::JOURNAL_FULL => Ok(code),
        // The wrappers lend slices of the right length, so this is a refusal.
        number => Err(Refused(number)),
    }
}

/// Runs up to `count` instructions with the wait list, from a `position` in it: below
/// its length, or 0. Each access to memory takes the next entry and waits so many
/// clocks; after the last entry the list begins again, and an empty list means no waits.
///
/// To go on, give the next run the memory and machine that were left, and
/// [`Run::position`]. To go on from a [`GateState`] in row 0, as a reset leaves it,
/// give it the state's `machine` and `position`.
pub fn run(
    memory: &mut [u32],
    bottom: u32,
    waits: &[u16],
    position: u32,
    machine: &mut Machine,
    count: u32,
) -> Result<Run, Refused> {
    let mut words = machine.to_words();
    let mut result = [0u64; 3];
    let code = carried_out(library::run(
        memory,
        bottom,
        waits,
        position,
        &mut words,
        count,
        &mut result,
    ))?;
    *machine = Machine::from_words(&words);
    Ok(Run {
        finished: code == library::DONE,
        halted: code == library::HALTED,
        ran: result[0] as u32,
        clocks: result[1],
        position: result[2] as u32,
    })
}

/// Runs up to `count` instructions without waits; a run that comes outside or to a
/// word that is no instruction, or whose journal is full, is taken back whole.
///
/// The journal notes each address that is stored to once, in the order of the first
/// stores: pair i has the address and the word from before that store, at places 2i and
/// 2i + 1. It has half as many pairs as places, and is full where a store needs one
/// address more. Two places for each word of memory are always enough, and so are two for
/// each instruction.
pub fn file_run(
    memory: &mut [u32],
    bottom: u32,
    journal: &mut [u32],
    machine: &mut Machine,
    count: u32,
) -> Result<FileRun, Refused> {
    let mut words = machine.to_words();
    let mut result = [0u64; 2];
    let code = library::file_run(memory, bottom, journal, &mut words, count, &mut result);
    let code = carried_out(code)?;
    *machine = Machine::from_words(&words);
    Ok(FileRun {
        finished: code == library::DONE,
        full: code == library::JOURNAL_FULL,
        ran: result[0] as u32,
        pairs: result[1] as u32,
    })
}

/// Does `clocks` clocks of the gate machine, with the wait list as for [`run`], but
/// from the state's position; returns the instructions finished, before a reset too.
///
/// `resets` has the numbers of the clocks on which the reset line is held, each above
/// the one before. They count from 0 at the beginning of this run, and anew in a run
/// that follows on; numbers at or past `clocks` have no effect. A reset clock does no
/// row's work: r0 and the row become 0, and an access that has begun is dropped, its
/// wait entry used up. The other registers, flags, latches, list position and memory
/// stay, with all that the cut instruction has done to them; it does not count as
/// finished. On the next clock the machine begins with the instruction at address 0,
/// also where a missing word or row 12 had held it.
pub fn gate_run(
    memory: &mut [u32],
    bottom: u32,
    waits: &[u16],
    resets: &[u64],
    state: &mut GateState,
    clocks: u64,
) -> Result<u64, Refused> {
    let mut words = state.to_words();
    let mut result = [0u64; 1];
    carried_out(library::gate_run(
        memory,
        bottom,
        waits,
        resets,
        &mut words,
        clocks,
        &mut result,
    ))?;
    *state = GateState::from_words(&words);
    Ok(result[0])
}

/// Does one clock of the gate machine, without a reset; returns whether an instruction
/// finished.
pub fn clock(
    memory: &mut [u32],
    bottom: u32,
    waits: &[u16],
    state: &mut GateState,
) -> Result<bool, Refused> {
    let mut words = state.to_words();
    let mut result = [0u64; 1];
    carried_out(library::clock(
        memory,
        bottom,
        waits,
        &mut words,
        &mut result,
    ))?;
    *state = GateState::from_words(&words);
    Ok(result[0] == 1)
}

/// Loads an image into the front of `memory`; returns its machine, how many words it
/// has, and the rule that its version stands for.
pub fn read_image(image: &[u8], memory: &mut [u32]) -> Result<(Machine, usize, Rule), Refused> {
    let mut words = [0; MACHINE_SIZE];
    let mut result = [0u64; 2];
    carried_out(library::image_read(image, memory, &mut words, &mut result))?;
    let rule = Rule::try_from(result[1] as u32)?;
    Ok((Machine::from_words(&words), result[0] as usize, rule))
}

/// The size of the image of a memory of so many words.
pub fn image_size(words: usize) -> usize {
    56 + 4 * words + 3 * words.div_ceil(1024)
}

/// Writes the image of a machine and a memory, of the rule's version, to the front of
/// `out`; returns its size.
pub fn write_image(
    memory: &[u32],
    machine: &Machine,
    rule: Rule,
    out: &mut [u8],
) -> Result<usize, Refused> {
    let mut result = [0u64; 1];
    carried_out(library::image_write(
        memory,
        &machine.to_words(),
        rule.into(),
        out,
        &mut result,
    ))?;
    Ok(result[0] as usize)
}
