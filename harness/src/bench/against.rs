//! File runs against plain runs of the same programs.

use super::measure::{times, Task, Times};
use super::table::{heading, row, Table};
use crate::baseline::CONTENDERS;

/// A program's file runs and plain runs, a time for each contender.
pub struct Pair {
    name: String,
    files: Times,
    plain: Times,
}

impl Pair {
    /// All contenders' file runs and plain runs take turns.
    pub fn measure<'a>(
        name: String,
        rounds: u64,
        files: impl Iterator<Item = Task<'a>>,
        plain: impl Iterator<Item = Task<'a>>,
    ) -> Pair {
        let mut tasks: Vec<Task> = files.chain(plain).collect();
        let mut files = times(rounds, &mut tasks);
        let plain = files.split_off(CONTENDERS.len());
        Pair { name, files, plain }
    }
}

/// The file runs' times, and what they are compared with.
pub struct Against {
    title: &'static str,
    pairs: Vec<Pair>,
}

impl Against {
    pub fn new(title: &'static str, pairs: impl Iterator<Item = Pair>) -> Against {
        let pairs = pairs.collect();
        Against { title, pairs }
    }

    /// The best times of the file runs.
    pub fn files(&self) -> Table {
        let row = |pair: &Pair| (pair.name.clone(), pair.files.best.clone());
        Table {
            title: self.title.into(),
            unit: "instruction",
            rows: self.pairs.iter().map(row).collect(),
        }
    }

    /// Each contender's file runs against its own plain runs, by the best times and by the
    /// medians, which a single quick round does not move.
    pub fn print(&self) {
        self.print_by("best times", |times| &times.best);
        self.print_by("medians", |times| &times.median);
    }

    fn print_by(&self, what: &str, of: impl Fn(&Times) -> &[f64]) {
        println!("\n### {} against plain run, {what}\n", self.title);
        let names = CONTENDERS.iter().map(|c| c.name.to_string());
        heading("time per instruction", names);
        for Pair { name, files, plain } in &self.pairs {
            let ratios = of(files).iter().zip(of(plain)).map(|(f, p)| f / p);
            row(name, ratios.map(|ratio| format!("{ratio:.2}")));
        }
    }
}
