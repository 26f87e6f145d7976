//! Tables in Markdown.

use crate::baseline::CONTENDERS;

/// Rows of measured times, the proved emulator's in the first column.
pub struct Table {
    pub title: String,
    /// What a time is of, such as "instruction".
    pub unit: &'static str,
    pub rows: Vec<(String, Vec<f64>)>,
}

impl Table {
    /// The ratios of the proved emulator to the others.
    pub fn print_ratios(&self) {
        println!("\n### {}\n", self.title);
        let others = CONTENDERS[1..].iter();
        heading(
            &format!("time per {}", self.unit),
            others.map(|other| format!("proved / {}", other.name)),
        );
        for (name, times) in &self.rows {
            let ratios = times[1..].iter().map(|time| times[0] / time);
            row(name, ratios.map(|ratio| format!("{ratio:.2}")));
        }
    }

    pub fn print_times(&self) {
        println!("\n### {}\n", self.title);
        let all = CONTENDERS.iter().map(|c| c.name.to_string());
        heading(&format!("ns per {}", self.unit), all);
        for (name, times) in &self.rows {
            row(name, times.iter().map(|time| format!("{time:.2}")));
        }
    }
}

pub fn heading(first: &str, others: impl Iterator<Item = String>) {
    let others: Vec<String> = others.collect();
    println!("| {first} | {} |", others.join(" | "));
    println!("|---|{}", "---:|".repeat(others.len()));
}

pub fn row(name: &str, cells: impl Iterator<Item = String>) {
    let cells: Vec<String> = cells.collect();
    println!("| {name} | {} |", cells.join(" | "));
}
