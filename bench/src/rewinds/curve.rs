//! The time for each record at each size: where it grows with the size, the whole time grows faster than the records.

use crate::grid::{shown, Grid};
use std::iter;

pub struct Curve<'a> {
    sizes: &'a [usize],
    lines: Vec<Line>,
}

/// The times of ours and of the Rust's for one thing in nanoseconds, a size after another.
struct Line {
    what: &'static str,
    times: [Vec<Option<f64>>; 2],
}

impl<'a> Curve<'a> {
    pub fn new(sizes: &'a [usize]) -> Self {
        Self {
            sizes,
            lines: Vec::new(),
        }
    }

    /// Adds the nanoseconds for each record at the next size.
    pub fn add(&mut self, what: &'static str, times: [Option<f64>; 2]) {
        let at = self.lines.iter().position(|line| line.what == what);
        let at = at.unwrap_or_else(|| {
            let times = [Vec::new(), Vec::new()];
            self.lines.push(Line { what, times });
            self.lines.len() - 1
        });
        for (line, time) in self.lines[at].times.iter_mut().zip(times) {
            line.push(time);
        }
    }

    pub fn print(&self) {
        println!("Nanoseconds for each entry seeded and each record rewound, by the records of the journal:");
        println!();
        let sizes = self.sizes.iter().map(usize::to_string);
        let mut grid = Grid::new(iter::once("what".to_string()).chain(sizes).collect());
        for line in &self.lines {
            for (side, times) in ["ours", "the Rust's"].iter().zip(&line.times) {
                let what = format!("{}, {side}", line.what);
                let times = times.iter().map(|&time| shown(time, 0));
                grid.add(iter::once(what).chain(times).collect());
            }
        }
        grid.print();
    }
}
