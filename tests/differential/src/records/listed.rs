//! The subject `listed records`: the record at an offset of an extract. The Rust has no such call; the expected answer
//! is composed from its parsers, as its scan does it.

use super::answers::{compare_listed, LENT};
use super::layout::{put, Layout, LAYOUTS, MAJOR_VERSION};
use super::{cases, edges, lent, listed_edges};
use crate::difference::{Case, Difference, Outcome};
use crate::library::DOMAIN;
use crate::random::Random;
use crate::Run;

const SUBJECT: &str = "listed records";

/// Keeps this subject's random numbers apart from the others'.
const STREAM: u64 = 2;

pub fn run(run: &Run) -> Outcome {
    let exhaustive = exhaustive()?;
    println!("{SUBJECT}: {exhaustive} exhaustive cases, no difference");
    let mut bytes = Vec::new();
    for number in 0..run.cases {
        let mut random = Random::of_case(run.seed, STREAM, number);
        let (kind, offset) = fill(&mut random, &mut bytes);
        let lent = lent(&mut random);
        compare(Some(run.seed), number, kind, (&bytes, offset), &[lent])?;
    }
    println!("{SUBJECT}: {} cases, seed {}, no difference", run.cases, run.seed);
    Ok(())
}

/// The record at an offset of an extract, lent each number of words in turn.
fn compare(seed: Option<u64>, number: u64, kind: &'static str, place: (&[u8], usize), lent: &[usize]) -> Outcome {
    let (bytes, offset) = place;
    let case = Case {
        subject: SUBJECT,
        seed,
        number,
        kind,
        bytes,
    };
    for &lent in lent {
        let again = |bytes: &[u8]| compare_listed(bytes, offset, lent).err();
        compare_listed(bytes, offset, lent).map_err(|finding| case.smallest(finding, again))?;
    }
    Ok(())
}

/// The exhaustive inputs, and records at both ends of the largest extract; how many they are.
fn exhaustive() -> Result<u64, Difference> {
    let mut number = 0;
    for input in listed_edges::inputs() {
        compare(None, number, input.kind, (&input.bytes, input.offset), &LENT)?;
        number += 1;
    }
    number = before_the_extract(number)?;
    // The pages of this extract are not in memory before they are touched, and only those of the records are.
    let mut extract = vec![0; DOMAIN];
    for layout in LAYOUTS {
        let record = edges::example(layout);
        let last = DOMAIN - record.len();
        extract[..record.len()].copy_from_slice(&record);
        extract[last..].copy_from_slice(&record);
        for offset in [0, 8, last - 8, last, last + 8, DOMAIN - 8, DOMAIN - 7, DOMAIN] {
            compare(None, number, "largest extract", (&extract, offset), &LENT)?;
            number += 1;
        }
    }
    Ok(number)
}

/// Offsets so near the end of the 64 bits that a sum which wraps would lead to the record that lies before the extract,
/// where it begins in the middle of one. `number` is the first case's; gives the next one's.
fn before_the_extract(mut number: u64) -> Result<u64, Difference> {
    for layout in LAYOUTS {
        let record = edges::example(layout);
        let twice = record.repeat(2);
        for before in 1..=record.len() {
            let place = (&twice[before..], before.wrapping_neg());
            compare(None, number, "record before the extract", place, &LENT)?;
            number += 1;
        }
    }
    Ok(number)
}

/// Fills `bytes` with an extract of up to five pieces: records, damaged ones, zero words and random bytes. Gives the
/// kind of the offset and the offset: mostly where a piece begins.
fn fill(random: &mut Random, bytes: &mut Vec<u8>) -> (&'static str, usize) {
    bytes.clear();
    let mut starts = [0; 5];
    let pieces = random.between(1, starts.len());
    for start in &mut starts[..pieces] {
        *start = bytes.len();
        piece(random, bytes);
    }
    match random.below(16) {
        0 => ("any offset", random.below(bytes.len() + 16)),
        1 => ("around the end", (bytes.len() + 4).saturating_sub(random.below(16))),
        2 => ("far offset", usize::MAX - random.below(1 << 20)),
        3 => {
            let start = random.pick(&starts[..pieces]);
            let cut = random.between(start, bytes.len());
            bytes.truncate(cut);
            ("cut extract", start)
        }
        _ => ("piece", random.pick(&starts[..pieces])),
    }
}

/// Appends a piece of an extract.
fn piece(random: &mut Random, bytes: &mut Vec<u8>) {
    let layout = random.pick(&LAYOUTS);
    let start = bytes.len();
    match random.below(16) {
        0 => bytes.resize(start + 8 * random.between(1, 8), 0),
        1 => {
            let length = random.between(1, 100);
            random.append(bytes, length);
        }
        2..=5 => {
            cases::record(random, layout, bytes);
            cases::damage(random, layout, &mut bytes[start..]);
        }
        6..=8 => {
            cases::record(random, layout, bytes);
            edge_numbers(random, layout, &mut bytes[start..]);
        }
        _ => cases::record(random, layout, bytes),
    }
    if random.one_in(2) {
        bytes.resize(bytes.len().next_multiple_of(8), 0);
    }
}

/// Gives a record another version, length or name length, at an edge of what is accepted.
fn edge_numbers(random: &mut Random, layout: &Layout, record: &mut [u8]) {
    let length = record.len();
    match random.below(3) {
        0 => put(
            record,
            MAJOR_VERSION,
            2,
            random.pick(&[0, 1, 2, 3, 4, 5, 0x0302, 0xffff]),
        ),
        1 => {
            let lengths = [0, 7, 8, 59, 60, 61, 75, 76, 77, length - 1, length + 1, length + 8];
            put(record, 0, 4, random.pick(&lengths) as u64);
        }
        _ => {
            let around = length - layout.fixed + random.below(4);
            put(record, layout.name_length, 2, around.saturating_sub(1) as u64);
        }
    }
}
