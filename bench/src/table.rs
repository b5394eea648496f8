//! The table of rates: ours and the Rust's in turn, each call made once with its memory counted, and then timed.

use crate::allocation;
use crate::cost::Cost;
use crate::grid::{shown, Grid};
use crate::sum::Sum;
use std::time::Duration;

const REPETITIONS: usize = 3;

/// A call that takes longer is not repeated: its time is that with the counting.
const LONG: Duration = Duration::from_secs(60);

/// A call with all that is made ready for it: what it cost, and what it gave.
pub type Call<'a> = &'a dyn Fn() -> (Cost, Sum);

/// What a rate counts.
#[derive(Debug, Clone, Copy, PartialEq, Eq)]
pub enum Unit {
    Bytes,
    Records,
}

/// What the calls of a row have to do.
#[derive(Debug, Clone, Copy)]
pub struct Task {
    /// How many bytes or records are gone through.
    pub size: usize,
    /// What must be given.
    pub expected: Sum,
    /// The bytes that are lent for reading, to ours and to the Rust's, beside what the calls make ready for themselves.
    pub lent: [usize; 2],
}

pub struct Table {
    unit: Unit,
    rows: Vec<Row>,
}

/// What is timed, and the cost of ours and of the Rust's, with what is lent for reading counted in.
struct Row {
    what: String,
    size: usize,
    costs: [Option<Cost>; 2],
}

impl Table {
    pub fn new(unit: Unit) -> Self {
        Self { unit, rows: Vec::new() }
    }

    /// Measures ours and the Rust's in turn, where there is such a call; gives their times.
    pub fn add(
        &mut self,
        what: &str,
        task: &Task,
        ours: Option<Call>,
        rust: Option<Call>,
    ) -> Result<[Option<Duration>; 2], String> {
        let calls = [ours, rust];
        let mut costs = [None; 2];
        for (side, call) in calls.into_iter().enumerate() {
            let Some(call) = call else { continue };
            allocation::begin();
            let counted = task.done(what, call);
            allocation::end();
            let mut cost = counted?;
            cost.memory += task.lent[side];
            costs[side] = Some(cost);
        }
        let repeated = costs.map(|cost| cost.is_some_and(|cost| cost.time <= LONG));
        let mut best = [Duration::MAX; 2];
        for _ in 0..REPETITIONS {
            for side in (0..2).filter(|&side| repeated[side]) {
                let call = calls[side].expect("what is repeated has a cost");
                best[side] = best[side].min(task.done(what, call)?.time);
            }
        }
        for side in (0..2).filter(|&side| repeated[side]) {
            costs[side].as_mut().expect("what is repeated has a cost").time = best[side];
        }
        self.rows.push(Row {
            what: what.to_string(),
            size: task.size,
            costs,
        });
        Ok(costs.map(|cost| cost.map(|cost| cost.time)))
    }

    pub fn print(&self) {
        println!(
            "Best of {REPETITIONS}, or once what takes more than {} s; MB is 1000000 bytes.",
            LONG.as_secs()
        );
        println!("What we are lent to write is cleared before the time begins, unless the row says uncleared; the Rust takes its");
        println!("memory within the time. Its names are text; ours are places, unless the row says text or paths.");
        println!("Peak: the most bytes allocated at once during the call, with what is lent to it and what it gives.");
        println!();
        let unit = match self.unit {
            Unit::Bytes => "MB/s",
            Unit::Records => "records/s",
        };
        let mut grid = Grid::new(vec![
            "what".to_string(),
            format!("ours {unit}"),
            format!("the Rust's {unit}"),
            "ratio".to_string(),
            "our peak MB".to_string(),
            "the Rust's peak MB".to_string(),
        ]);
        for row in &self.rows {
            let rates = row.costs.map(|cost| cost.map(|cost| self.rate(row.size, cost.time)));
            let ratio = rates[0].zip(rates[1]).map(|(ours, rust)| ours / rust);
            let peaks = row.costs.map(|cost| cost.map(|cost| cost.memory as f64 / 1e6));
            grid.add(vec![
                row.what.clone(),
                shown(rates[0], 0),
                shown(rates[1], 0),
                shown(ratio, if ratio < Some(0.1) { 4 } else { 2 }),
                shown(peaks[0], 1),
                shown(peaks[1], 1),
            ]);
        }
        grid.print();
    }

    fn rate(&self, size: usize, time: Duration) -> f64 {
        let rate = size as f64 / time.as_secs_f64();
        match self.unit {
            Unit::Bytes => rate / 1e6,
            Unit::Records => rate,
        }
    }
}

impl Task {
    /// Makes a call, which must give what is expected; gives what it cost.
    fn done(&self, what: &str, call: Call) -> Result<Cost, String> {
        let (cost, given) = call();
        match given == self.expected {
            true => Ok(cost),
            false => Err(format!("{what}: {given:?}, not {:?}", self.expected)),
        }
    }
}
