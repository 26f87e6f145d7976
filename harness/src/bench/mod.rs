//! The proved emulator's speed against the reference emulator, tuned Rust and C.

mod against;
pub mod agreement;
pub mod calls;
pub mod file_runs;
pub mod images;
pub mod journals;
mod measure;
pub mod resets;
pub mod runs;
mod table;
pub mod traverses;
pub mod units;
mod workload;

/// How much is measured.
#[derive(Clone, Copy)]
pub struct Sizes {
    /// The best of so many rounds counts.
    pub rounds: u64,
    /// Instructions of a run: few, so that it often runs without a break.
    pub instructions: u32,
    /// Clocks of a gate run.
    pub clocks: u64,
    /// Words of an image.
    pub words: usize,
    /// Calls of which the overhead is taken.
    pub calls: u64,
    /// Resets of a gate run.
    pub resets: u64,
}
