//! The window: `usn/reader.rs` of the original against the library's calls. The Rust's reader has full reads; our
//! window is delivered the same bytes in pieces of any size.

mod calls;
mod edges;
mod model;
pub mod reading;
mod refusals;
mod short_reads;
mod streams;

use crate::difference::{Case, Difference, Finding, Outcome};
use crate::journals::{self, known};
use crate::random::Random;
use crate::Run;
use calls::Pair;
use reading::{Steady, Stream};
use std::thread;

const SUBJECT: &str = "window";

/// Keeps this subject's random numbers apart from the others'.
const STREAM: u64 = 5;

/// Every journal is so much larger than a record that it counts for this many of a run's cases.
const COUNTS_FOR: u64 = 2000;

/// The Rust's reader calls itself for each word that is no record, so that rubbish takes a stack of its length.
const STACK: usize = 1 << 30;

pub fn run(run: &Run) -> Outcome {
    thread::scope(|scope| {
        let subject = thread::Builder::new()
            .stack_size(STACK)
            .spawn_scoped(scope, || subject(run));
        subject
            .expect("there is room for a stack")
            .join()
            .expect("the subject does not panic")
    })
}

fn subject(run: &Run) -> Outcome {
    let mut pair = Pair::new();
    let exhaustive = exhaustive(&mut pair)?;
    println!("{SUBJECT}: {exhaustive} exhaustive cases, no difference");
    let cases = run.cases.div_ceil(COUNTS_FOR);
    let mut total = 0;
    let mut bytes = Vec::new();
    for number in 0..cases {
        let mut random = Random::of_case(run.seed, STREAM, number);
        let kind = streams::fill(&mut random, &mut bytes);
        let case = Case {
            subject: SUBJECT,
            seed: Some(run.seed),
            number,
            kind,
            bytes: &bytes,
        };
        random_case(&mut pair, &bytes, &mut random).map_err(|finding| case.differs(finding))?;
        total += bytes.len();
    }
    println!(
        "{SUBJECT}: {cases} cases, {total} bytes, seed {}, no difference",
        run.seed
    );
    short_reads::run()
}

/// An input of the fuzzer.
#[cfg(fuzzing)]
pub fn fuzzed(bytes: &[u8], random: &mut Random) -> Outcome {
    let case = Case {
        subject: SUBJECT,
        seed: None,
        number: 0,
        kind: crate::fuzz::FUZZED,
        bytes,
    };
    random_case(&mut Pair::new(), bytes, random).map_err(|finding| case.differs(finding))
}

/// A journal, delivered in two ways.
fn random_case(pair: &mut Pair, bytes: &[u8], random: &mut Random) -> Result<(), Finding> {
    let stream = Stream::of(bytes)?;
    for _ in 0..2 {
        stream.read(pair, &mut streams::Restless::new(random))?;
    }
    Ok(())
}

/// The journals that the scope names, the exhaustive ones of all readers and those of the window, and windows of any
/// numbers; how many they are.
fn exhaustive(pair: &mut Pair) -> Result<u64, Difference> {
    let mut number = 0;
    let mut check = |kind, bytes: &[u8], offsets: Option<&[usize]>| {
        let case = Case {
            subject: SUBJECT,
            seed: None,
            number,
            kind,
            bytes,
        };
        number += 1;
        exhaustive_case(pair, bytes, offsets).map_err(|finding| case.differs(finding))
    };
    for known in known::cases() {
        check(known.name, &known.bytes, Some(known.windowed))?;
    }
    for input in journals::edges::inputs().into_iter().chain(edges::inputs()) {
        check(input.kind, &input.bytes, None)?;
    }
    let windows = refusals::run().map_err(|finding| {
        let case = Case {
            subject: SUBJECT,
            seed: None,
            number,
            kind: "windows of any numbers",
            bytes: &[],
        };
        case.differs(finding)
    })?;
    Ok(number + windows)
}

/// A journal, delivered whole and by a few bytes, by a single one where it is short; its records lie at these offsets,
/// where the scope names them.
fn exhaustive_case(pair: &mut Pair, bytes: &[u8], offsets: Option<&[usize]>) -> Result<(), Finding> {
    let stream = Stream::of(bytes)?;
    let few = if bytes.len() < 1000 { 1 } else { 61 };
    for size in [usize::MAX, few] {
        stream.read(pair, &mut Steady(size))?;
    }
    let found: Vec<usize> = stream.places.iter().map(|place| place.offset).collect();
    match offsets {
        Some(offsets) if found != offsets => Err(Finding {
            call: "all of usn_reader_next".to_string(),
            what: format!("the scope names the offsets {offsets:?}"),
            rust: format!("{found:?}"),
            ours: "as the Rust".to_string(),
        }),
        _ => Ok(()),
    }
}
