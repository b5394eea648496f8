//! What `usnlist` has to print, by the Rust that our library replaces: the journals of tests/usnlist and samples, each with
//! its listing, and random journals on which our program is held to the listing at once. README.md says how it is run.
//!
//! The original's files are modules of this program, compiled from where they lie (build.rs), beside the stand-ins of
//! tests/differential for what they lack.

#[allow(dead_code)]
#[path = "../../../differential/src/error.rs"]
mod error;
#[allow(dead_code)]
#[path = "../../../differential/src/random.rs"]
mod random;
#[allow(dead_code, unused_imports)]
#[path = "../../../differential/src/usn/mod.rs"]
mod usn;

mod cases;
mod journals;
mod listing;
mod record;
mod sample;
mod slow;

include!(concat!(env!("OUT_DIR"), "/original.rs"));

use std::fs::{self, File};
use std::io;
use std::path::Path;
use std::process::{Command, ExitCode};

const USAGE: &str = "usage: expected write CASES SAMPLES SLOW\n       expected random PROGRAM WORK SEED COUNT";

/// What the program says on standard error of an input that it does not list to its end.
const LONGER: &str = "usnlist: the input is longer than 65536 bytes, and the rest of it is not listed\n";

fn main() -> ExitCode {
    let words: Vec<String> = std::env::args().skip(1).collect();
    let words: Vec<&str> = words.iter().map(String::as_str).collect();
    let done = match words[..] {
        ["write", cases, samples, slow] => write(Path::new(cases), Path::new(samples), Path::new(slow)),
        ["random", program, work, seed, count] => match (seed.parse(), count.parse()) {
            (Ok(seed), Ok(count)) => compare(program, Path::new(work), seed, count),
            _ => return usage(),
        },
        _ => return usage(),
    };
    match done {
        Ok(()) => ExitCode::SUCCESS,
        Err(error) => {
            eprintln!("{error}");
            ExitCode::FAILURE
        }
    }
}

fn usage() -> ExitCode {
    eprintln!("{USAGE}");
    ExitCode::from(2)
}

/// Every case and every slow journal as NAME.in and NAME.out, and the sample as journal.bin and journal.txt.
fn write(cases: &Path, samples: &Path, slow: &Path) -> io::Result<()> {
    fs::create_dir_all(samples)?;
    for (folder, journals) in [(cases, cases::all()), (slow, slow::all())] {
        fs::create_dir_all(folder)?;
        for (name, journal) in journals {
            fs::write(folder.join(format!("{name}.in")), &journal)?;
            fs::write(folder.join(format!("{name}.out")), listing::of(&journal))?;
        }
    }
    let journal = sample::journal();
    fs::write(samples.join("journal.bin"), &journal)?;
    fs::write(samples.join("journal.txt"), listing::of(&journal))
}

/// Runs the program on so many random journals, each through a file, and stops at the first listing that differs. That
/// journal stays in the file.
fn compare(program: &str, work: &Path, seed: u64, count: u64) -> io::Result<()> {
    fs::create_dir_all(work)?;
    let file = work.join("random.in");
    let mut records = 0;
    let mut unshown = 0;
    let mut longer = 0;
    for case in 0..count {
        let journal = journals::random(seed, case);
        fs::write(&file, &journal)?;
        let expected = listing::of(&journal);
        let output = Command::new(program).stdin(File::open(&file)?).output()?;
        let said = if journal.len() > listing::BYTES { LONGER } else { "" };
        if output.stdout != expected || output.stderr != said.as_bytes() {
            fs::write(work.join("random.out"), &output.stdout)?;
            fs::write(work.join("random.expected"), &expected)?;
            let message = format!(
                "seed {seed}, journal {case}: the listings differ, or what is said on standard error: see random.* in {}",
                work.display()
            );
            return Err(io::Error::other(message));
        }
        let paths: Vec<_> = listing::paths(&expected).collect();
        records += paths.len();
        unshown += paths.iter().filter(|path| **path == b"?").count();
        longer += usize::from(journal.len() > listing::BYTES);
    }
    println!("random journals: {count} with {records} records, {unshown} paths too long to show, {longer} longer than is read: no difference");
    Ok(())
}
