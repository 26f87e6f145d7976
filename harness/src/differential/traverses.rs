//! Traverses (CR 1): generated ones against the reference, good and spoilt; what holds of
//! the library's own answers is in `taken_back.rs`.

use super::outcome::Outcome;
use super::{expected, proved, run_case, same, taken_back, Check};
use crate::codes::JOURNAL_FULL;
use crate::text::hex_words;
use crate::words::file_words;
use fm8502::library::{DONE, STOPPED};
use reference::generate::journal::{storing_traverse_case, traverse_places};
use reference::generate::program::{any_program, Program};
use reference::generate::traverse::{looping_traverse_case, traverse_case, TraverseCase};
use reference::generate::traverse_faults::{any_faults, spoil};
use reference::rng::Rng;
use std::fmt;

/// The two rules, by their versions.
pub const RULES: [u32; 2] = [1, 2];

/// What the traverses did, to show that they do different things.
#[derive(Default)]
pub struct Tally {
    pub calls: u64,
    /// Files that were run, and those of them that were undone.
    pub files: u64,
    pub undone: u64,
    /// Traverses that were taken back as a whole, and those of them whose journal was full.
    pub taken_back: u64,
    pub full: u64,
    /// Words of the files that were run, though a full journal may not take them all.
    pub words: u64,
    pub pairs: u64,
    pub refused: u64,
}

impl fmt::Display for Tally {
    fn fmt(&self, f: &mut fmt::Formatter<'_>) -> fmt::Result {
        write!(
            f,
            "{} calls, {} files, {} files undone, {} traverses taken back, ",
            self.calls, self.files, self.undone, self.taken_back
        )?;
        write!(
            f,
            "{} of them with a full journal, {} words laid, {} journal pairs, {} refused",
            self.full, self.words, self.pairs, self.refused
        )
    }
}

impl Tally {
    fn count(&mut self, case: &TraverseCase, outcome: &Outcome) {
        self.calls += 1;
        if !outcome.carried_out() {
            self.refused += 1;
            return;
        }
        let [undone, _, pairs] = [0, 1, 2].map(|place| outcome.result[place]);
        let mut files = case.files.len();
        if matches!(outcome.code, STOPPED | JOURNAL_FULL) {
            files = undone as usize + 1;
            self.undone += 1;
            self.taken_back += 1;
            self.full += u64::from(outcome.code == JOURNAL_FULL);
        } else {
            self.undone += u64::from(undone.count_ones());
        }
        let laid = case.files.iter().take(files).map(|file| file.words);
        self.words += laid.map(u64::from).sum::<u64>();
        self.files += files as u64;
        self.pairs += pairs;
    }
}

/// On a generated program.
pub fn check(rng: &mut Rng, tally: &mut Tally) -> Check {
    let program = any_program(rng);
    let case = traverse_case(rng, &program);
    check_generated(rng, case, tally)
}

/// On a program that stores on nearly every instruction, with a journal that may be too
/// small for all files or for one.
pub fn check_storing(rng: &mut Rng, tally: &mut Tally) -> Check {
    let case = storing_traverse_case(rng);
    check_generated(rng, case, tally)
}

/// On a program that loops.
pub fn check_looping(rng: &mut Rng, tally: &mut Tally) -> Check {
    let case = looping_traverse_case(rng);
    check_generated(rng, case, tally)
}

/// Under both rules, also with another journal, and then spoilt.
fn check_generated(rng: &mut Rng, mut case: TraverseCase, tally: &mut Tally) -> Check {
    check_rules(&mut case, tally)?;
    case.places = traverse_places(rng, &case);
    check_rules(&mut case, tally)?;
    let faults = any_faults(rng);
    spoil(rng, &mut case, &faults);
    check_case(&case, tally)
}

/// Under both rules, the one it has last.
pub fn check_rules(case: &mut TraverseCase, tally: &mut Tally) -> Check {
    let version = case.version;
    for rule in RULES {
        case.version = rule;
        check_case(case, tally)?;
    }
    case.version = version;
    Ok(())
}

/// Of any traverse, refused or not.
pub fn check_case(case: &TraverseCase, tally: &mut Tally) -> Check {
    let proved = proved::traverse(case);
    let expected = expected::traverse(case);
    same("traverse", &proved, &expected, || text(case))?;
    tally.count(case, &proved);
    if proved.carried_out() {
        taken_back::check(case, &proved)?;
    }
    Ok(())
}

/// The image of the start, the bottom, the files and their words.
pub fn text(case: &TraverseCase) -> String {
    let files = file_words(&case.files);
    let files: String = files.chunks(4).map(|file| hex_words(file) + "\n").collect();
    let words = hex_words(&case.words);
    let TraverseCase {
        places, version, ..
    } = case;
    let far = format_args!("journal {places} places version {version}\nfiles\n{files}words{words}");
    run_case(&case.memory, case.bottom, &case.start, &[], far)
}

/// A file run is the traverse of one file with no words at place 0, entered at r0, under
/// either rule, refused or not; `file_run` is what the library made of it.
pub fn check_file_run(program: &Program, places: usize, file_run: &Outcome) -> Check {
    for rule in RULES {
        let case = TraverseCase::of_program(program, places, rule);
        let traverse = proved::traverse(&case);
        let due = as_traverse(file_run, rule);
        same(
            "traverse of one against its file run",
            &traverse,
            &due,
            || text(&case),
        )?;
        if traverse.carried_out() {
            taken_back::check_one(&case, &traverse)?;
        }
    }
    Ok(())
}

/// What a traverse of one must give where the file run gives this.
fn as_traverse(file_run: &Outcome, rule: u32) -> Outcome {
    let mut due = file_run.clone();
    let is_undone = matches!(file_run.code, STOPPED | JOURNAL_FULL);
    // A refused call leaves its result as it was, which has a place more here.
    let first = if due.carried_out() {
        u64::from(is_undone && rule == 1)
    } else {
        due.result[0]
    };
    due.result.insert(0, first);
    if is_undone && rule == 1 {
        due.code = DONE;
    }
    due
}
