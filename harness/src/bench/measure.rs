//! The best time of many rounds, and the median.

use std::time::Instant;

/// Prepares what it needs, times its work, and returns nanoseconds a unit.
pub type Task<'a> = Box<dyn FnMut() -> f64 + 'a>;

/// Nanoseconds that `work` takes for each of `units` units.
pub fn time<T>(units: u64, work: impl FnOnce() -> T) -> f64 {
    let start = Instant::now();
    std::hint::black_box(work());
    start.elapsed().as_secs_f64() * 1e9 / units as f64
}

/// The best time of each task, and its median.
pub struct Times {
    pub best: Vec<f64>,
    pub median: Vec<f64>,
}

impl Times {
    /// Those of the tasks from a number on, taken out.
    pub fn split_off(&mut self, from: usize) -> Times {
        Times {
            best: self.best.split_off(from),
            median: self.median.split_off(from),
        }
    }
}

/// The tasks take turns, so that what else runs on the computer hits them alike, and each
/// round begins with another.
pub fn times(rounds: u64, tasks: &mut [Task]) -> Times {
    let mut all = vec![Vec::new(); tasks.len()];
    for round in 0..rounds as usize {
        for turn in 0..tasks.len() {
            let i = (round + turn) % tasks.len();
            all[i].push(tasks[i]());
        }
    }
    all.iter_mut().for_each(|task| task.sort_by(f64::total_cmp));
    let at = |place: fn(usize) -> usize| all.iter().map(|task| task[place(task.len())]).collect();
    Times {
        best: at(|_| 0),
        median: at(|rounds| rounds / 2),
    }
}

/// The best time of each task.
pub fn best(rounds: u64, tasks: &mut [Task]) -> Vec<f64> {
    times(rounds, tasks).best
}
