//! A traverse: files that run one after the other on one memory.

use crate::{carried_out, library, Machine, Refused, Rule};

/// The places of a file in the list that the library takes.
pub const FILE_SIZE: usize = 4;

/// A file of a traverse.
#[derive(Clone, Copy, Debug, Default, PartialEq, Eq)]
pub struct File<'a> {
    /// The address of the first of its words.
    pub place: u32,
    /// What is laid at the place before it runs.
    pub words: &'a [u32],
    /// r0 when it begins to run.
    pub entry: u32,
    /// How many instructions are to run.
    pub count: u32,
}

/// How a traverse ended.
#[derive(Clone, Copy, Debug, PartialEq, Eq)]
pub struct Traverse {
    pub undone: Undone,
    /// Under [`Rule::PerTraverse`]: whether the file was undone because the journal was full.
    pub full: bool,
    /// Instructions that ran in the last file run, also if undone; 0 with no files.
    pub ran: u32,
    /// Pairs of address and former word in the journal; under [`Rule::PerFile`] those of
    /// the last file.
    pub pairs: u32,
}

/// What was undone, by the rule. Files are numbered from 0.
#[derive(Clone, Copy, Debug, PartialEq, Eq)]
pub enum Undone {
    /// Under [`Rule::PerFile`]: the undone files, bit i for file i.
    Files(u64),
    /// Under [`Rule::PerTraverse`]: the undone file, with which all others were taken
    /// back; none where all finished.
    Traverse(Option<usize>),
}

impl Traverse {
    /// Whether no file was undone.
    pub fn finished(&self) -> bool {
        matches!(self.undone, Undone::Files(0) | Undone::Traverse(None))
    }

    /// Whether the file of this number came to be undone. Under [`Rule::PerTraverse`] that
    /// is one file at most, though the others are taken back with it.
    pub fn is_undone(&self, file: usize) -> bool {
        match self.undone {
            Undone::Files(bits) => file < 64 && bits >> file & 1 == 1,
            Undone::Traverse(undone) => undone == Some(file),
        }
    }
}

/// Places with which the journal of a traverse is never full, on a memory of so many words:
/// two for each word and instruction, or for each word of the memory if those are fewer.
pub fn journal_places(files: &[File], memory_words: usize) -> usize {
    let sizes = files
        .iter()
        .map(|file| file.words.len().saturating_add(file.count as usize));
    let stores = sizes.fold(0, usize::saturating_add);
    stores.min(memory_words).saturating_mul(2)
}

/// Runs up to 64 files in turn: lays a file's words from its place on, sets r0 to its
/// entry, and runs up to its count of instructions as [`file_run`](crate::file_run) does.
/// The other registers, flags and memory go on from file to file.
///
/// The journal notes a laid word as it does a store. Per file it starts empty with each
/// file, and places past the last file's pairs keep what an earlier file wrote; per
/// traverse the files share the pairs. [`journal_places`] are always enough. A file that
/// comes outside or to a word that is no instruction, or finds the journal full, is undone;
/// the rule says what is then taken back: the file, from before its words were laid, or the
/// traverse, whose memory and machine are then those of its start. The pairs stay.
///
/// The library takes the files' numbers and words as two lists, which are allocated here;
/// [`library::traverse`] takes them as they are and allocates nothing.
pub fn traverse(
    memory: &mut [u32],
    bottom: u32,
    journal: &mut [u32],
    files: &[File],
    machine: &mut Machine,
    rule: Rule,
) -> Result<Traverse, Refused> {
    let mut words = machine.to_words();
    let mut result = [0u64; 3];
    let joined = joined(files, memory.len());
    let code = carried_out(library::traverse(
        memory,
        bottom,
        journal,
        &joined,
        &numbers(files),
        &mut words,
        rule.into(),
        &mut result,
    ))?;
    *machine = Machine::from_words(&words);
    let undone = match rule {
        Rule::PerFile => Undone::Files(result[0]),
        Rule::PerTraverse => {
            Undone::Traverse((code != library::DONE).then_some(result[0] as usize))
        }
    };
    Ok(Traverse {
        undone,
        full: code == library::JOURNAL_FULL,
        ran: result[1] as u32,
        pairs: result[2] as u32,
    })
}

/// The words of all files. A file of more words than the memory has is misplaced (17),
/// which comes before a length that does not fit (18), so its words are left out.
fn joined(files: &[File], memory_words: usize) -> Vec<u32> {
    let fitting = files.iter().filter(|file| file.words.len() <= memory_words);
    fitting.flat_map(|file| file.words).copied().collect()
}

/// The places of all files.
fn numbers(files: &[File]) -> Vec<u32> {
    files.iter().flat_map(places).collect()
}

/// A length of more than 32 bits is misplaced (17), as the largest number is.
fn places(file: &File) -> [u32; FILE_SIZE] {
    let length = u32::try_from(file.words.len()).unwrap_or(u32::MAX);
    [file.place, length, file.entry, file.count]
}
