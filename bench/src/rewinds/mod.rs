//! Seeding a table and rewinding a journal, at several sizes.

mod curve;
mod history;
mod ours;
mod rust;
mod tree;

use crate::cost::Cost;
use crate::options::Options;
use crate::sum::Sum;
use crate::table::{Call, Table, Task, Unit};
use curve::Curve;
use history::History;
use std::time::Duration;

/// A way of ours to seed or rewind, and the Rust's beside it.
struct Way {
    what: &'static str,
    goes_through: Through,
    /// Whether our time grows with the square of the records, so that ours is left out above `--plain-records`.
    plain: bool,
    /// Is told what must be given, for the room that it takes.
    ours: fn(&History, &Sum) -> (Cost, Sum),
    rust: fn(&History) -> (Cost, Sum),
}

/// What a way goes through.
#[derive(Clone, Copy)]
enum Through {
    /// The carved entries. Ours is lent the image.
    Entries,
    /// The records. Ours is lent the journal, and makes the names of the image ready for itself.
    Records,
}

const WAYS: [Way; 4] = [
    Way {
        what: "seed",
        goes_through: Through::Entries,
        plain: true,
        ours: ours::seed,
        rust: rust::seed,
    },
    Way {
        what: "seed by way of an index",
        goes_through: Through::Entries,
        plain: false,
        ours: ours::seed_indexed,
        rust: rust::seed,
    },
    Way {
        what: "rewind, paths kept",
        goes_through: Through::Records,
        plain: true,
        ours: ours::rewind,
        rust: rust::rewind,
    },
    Way {
        what: "rewind in one run, paths kept",
        goes_through: Through::Records,
        plain: false,
        ours: ours::rewind_indexed,
        rust: rust::rewind,
    },
];

impl Through {
    /// How many these are, how they are called, and the bytes that ours is lent with them. The Rust has all that it needs in the
    /// entries and the records that were made ready for it.
    fn of(self, history: &History) -> (usize, &'static str, usize) {
        match self {
            Through::Entries => (history.entries, "entries", history.image.len()),
            Through::Records => (history.records, "records", history.journal.len()),
        }
    }
}

/// Times every way at every size, and prints the table and the times by size. Every timing must give what the Rust gives.
pub fn measure(options: &Options) -> Result<(), String> {
    let mut table = Table::new(Unit::Records);
    let mut curve = Curve::new(&options.rewind_records);
    for &records in &options.rewind_records {
        let history = History::generated(options.seed, records);
        describe(&history, options.seed);
        for way in &WAYS {
            let (size, things, lent) = way.goes_through.of(&history);
            let task = Task {
                size,
                expected: (way.rust)(&history).1,
                lent: [lent, 0],
            };
            let ours = || (way.ours)(&history, &task.expected);
            let timed = !way.plain || records <= options.plain_records;
            let ours = timed.then_some(&ours as Call);
            let rust = || (way.rust)(&history);
            let what = format!("{}, {size} {things}", way.what);
            let times = table.add(&what, &task, ours, Some(&rust))?;
            let nanoseconds = |time: Duration| time.as_nanos() as f64 / size as f64;
            curve.add(way.what, times.map(|time| time.map(nanoseconds)));
        }
    }
    table.print();
    curve.print();
    Ok(())
}

/// Says what a history is, and how deep its paths are, by the Rust's rewind.
fn describe(history: &History, seed: u64) {
    println!(
        "history: {} records in a journal of {} bytes, {} entries in an image of {} bytes, seed {seed}",
        history.records,
        history.journal.len(),
        history.entries,
        history.image.len()
    );
    let (_, resolved) = rust::rewound(history);
    let share = |count: usize| 100.0 * count as f64 / resolved.len() as f64;
    let paths = || resolved.iter().map(|record| record.full_path.as_str());
    let names = |path: &str| path.matches('\\').count();
    println!(
        "{:.1}% of the paths begin at the root, {:.1}% have 3 to 8 names",
        share(paths().filter(|path| path.starts_with(".\\")).count()),
        share(paths().filter(|path| (3..=8).contains(&names(path))).count())
    );
}
