//! Compares our library with the Rust library that it replaces, on the same inputs. README.md says how to run it.
//!
//! The original's files are modules of this program, compiled from where they lie (build.rs). They name each other by
//! `crate::`, so they stand at the crate root with the stand-ins for what they lack: `error`, `usn`, and the crates
//! `chrono` and `safe_read`.

#[path = "../../../bindings/rust/src/declared.rs"]
mod declared;
mod difference;
mod error;
#[cfg(fuzzing)]
mod fuzz;
mod image;
mod journals;
mod lent;
mod library;
mod names;
mod paths;
mod random;
mod recording;
mod records;
mod rewinds;
mod usn;
mod window;

include!(concat!(env!("OUT_DIR"), "/original.rs"));

use difference::{Difference, Outcome};
use recording::Recording;
use std::io;
use std::path::Path;
use std::process::ExitCode;

const USAGE: &str =
    "usage: differential [--seed N] [--cases N] [--only SUBJECT]\n       differential --record CRATES\n       differential --image FILE";

/// The seed of a run and how many random cases each subject has; and the subject, where one alone is compared.
pub struct Run {
    pub seed: u64,
    pub cases: u64,
    pub only: Option<String>,
}

/// How many random cases each subject has where the command line does not say.
const CASES: u64 = 1_000_000;

impl Run {
    /// Something that a run must have met to show anything of it; a short run may not have.
    pub fn met(&self, subject: &str, what: &str, count: u64) -> Outcome {
        match count == 0 && self.cases >= CASES {
            true => Err(Difference::not_met(subject, what)),
            false => Ok(()),
        }
    }
}

/// A subject: its name, and what compares it.
type Subject = (&'static str, fn(&Run) -> Outcome);

/// All that is compared.
const SUBJECTS: [Subject; 9] = [
    ("parsers", records::parsers::run),
    ("listed records", records::listed::run),
    ("journal", journals::scan::run),
    ("carver", journals::carver::run),
    ("window", window::run),
    ("names", names::run),
    ("image", image::run),
    ("paths", paths::run),
    ("rewinds", rewinds::run),
];

/// What is recorded: its name, and what adds its inputs and the Rust's answers, in this order.
const RECORDED: [(&str, fn(&mut Recording)); 5] = [
    ("parsers", records::sample::record),
    ("readers", journals::sample::record),
    ("image", image::sample::record),
    ("paths", paths::sample::record),
    ("rewinds", rewinds::sample::record),
];

enum Command {
    Compare(Run),
    Record(String),
    Image(String),
}

#[cfg(fuzzing)]
fn main() -> ExitCode {
    fuzz::run()
}

#[cfg(not(fuzzing))]
fn main() -> ExitCode {
    match command(std::env::args().skip(1)) {
        None => {
            eprintln!("{USAGE}");
            ExitCode::from(2)
        }
        Some(Command::Record(folder)) => match record(Path::new(&folder)) {
            Ok(()) => ExitCode::SUCCESS,
            Err(error) => {
                eprintln!("{folder}: {error}");
                ExitCode::FAILURE
            }
        },
        Some(Command::Image(file)) => match image::file::run(&file) {
            Ok(()) => ExitCode::SUCCESS,
            Err(why) => {
                println!("{why}");
                ExitCode::FAILURE
            }
        },
        Some(Command::Compare(run)) => match compare(&run) {
            Ok(()) => ExitCode::SUCCESS,
            Err(difference) => {
                println!("{difference}");
                ExitCode::FAILURE
            }
        },
    }
}

/// The recording of every subject, to the folder of the program that replays it.
fn record(crates: &Path) -> io::Result<()> {
    let mut recording = Recording::default();
    for (name, add) in RECORDED {
        let before = recording.inputs;
        add(&mut recording);
        println!("recorded {name}: {} inputs", recording.inputs - before);
    }
    recording.write(&crates.join("replay"))
}

/// Every subject in turn, or the one that is asked for, up to the first difference.
fn compare(run: &Run) -> Outcome {
    let chosen = |name: &str| run.only.as_ref().is_none_or(|only| only == name);
    let mut subjects = SUBJECTS.iter().filter(|(name, _)| chosen(name));
    subjects.try_for_each(|(_, compare)| compare(run))
}

/// The command line; nothing where it is not understood.
fn command(mut words: impl Iterator<Item = String>) -> Option<Command> {
    let mut run = Run {
        seed: 1,
        cases: CASES,
        only: None,
    };
    let mut other = None;
    let mut of_a_run = false;
    while let Some(word) = words.next() {
        let value = words.next()?;
        match word.as_str() {
            "--seed" => run.seed = value.parse().ok()?,
            "--cases" => run.cases = value.parse().ok()?,
            "--only" if SUBJECTS.iter().any(|(name, _)| *name == value) => run.only = Some(value),
            "--record" if other.is_none() => other = Some(Command::Record(value)),
            "--image" if other.is_none() => other = Some(Command::Image(value)),
            _ => return None,
        }
        of_a_run |= matches!(word.as_str(), "--seed" | "--cases" | "--only");
    }
    match other {
        None => Some(Command::Compare(run)),
        other => other.filter(|_| !of_a_run),
    }
}
