//! What is recorded of the parsers: slices and the Rust's answers to them, a line each: `error`, or the fields in decimal
//! and the name in hexadecimal.

use super::answers::PARSERS;
use super::layout::{Layout, LAYOUTS};
use super::{cases, edges};
use crate::random::Random;
use crate::recording::{Kind, Recording};
use crate::usn::UsnRecord;
use std::fmt::Write;

/// The sample's own seed, and the two streams of random numbers that it takes.
const SEED: u64 = 20_261_112;
const EDGES: u64 = 1;
const CASES: u64 = 2;

/// How many inputs are recorded.
const INPUTS: usize = 300;

/// How many exhaustive inputs of each kind are taken; random ones make up the rest.
const EXHAUSTIVE: [(&str, usize); 11] = [
    ("zeros", 6),
    ("all bits set", 6),
    ("example of each length", 16),
    ("example as long as its slice", 16),
    ("length field", 40),
    ("name place", 40),
    ("time", 32),
    ("USN", 8),
    ("reference", 16),
    ("version fields", 8),
    ("single bit", 24),
];

/// The largest slice that is recorded.
const LONGEST_SLICE: usize = 300;

struct Sample<'a> {
    inputs: usize,
    recording: &'a mut Recording,
}

/// Adds the inputs to a recording.
pub fn record(recording: &mut Recording) {
    let mut sample = Sample { inputs: 0, recording };
    exhaustive(&mut sample);
    random(&mut sample);
}

/// Of each kind of exhaustive input as many as the table says, drawn from those on small slices.
fn exhaustive(sample: &mut Sample) {
    let inputs = edges::inputs();
    for (number, (kind, wanted)) in (0..).zip(EXHAUSTIVE) {
        let mut random = Random::of_case(SEED, EDGES, number);
        let small = |input: &&edges::Input| input.kind == kind && input.bytes.len() <= LONGEST_SLICE;
        let mut of_kind: Vec<_> = inputs.iter().filter(small).collect();
        for _ in 0..wanted {
            let input = of_kind.swap_remove(random.below(of_kind.len()));
            sample.add(input.layout, &input.bytes);
        }
    }
}

/// Random inputs, up to the number wanted. Some are read in the other version than they are written in.
fn random(sample: &mut Sample) {
    let mut bytes = Vec::new();
    let mut case = 0;
    while sample.inputs < INPUTS {
        let mut random = Random::of_case(SEED, CASES, case);
        let (_, written) = cases::fill(&mut random, &mut bytes);
        let read = if random.one_in(8) {
            random.pick(&LAYOUTS)
        } else {
            written
        };
        sample.add(read, &bytes);
        case += 1;
    }
}

impl Sample<'_> {
    /// Adds an input and the Rust's answer. A long slice is left out, and so is a name with U+FFFD, whose text does not
    /// tell the units.
    fn add(&mut self, layout: &Layout, bytes: &[u8]) {
        if bytes.len() > LONGEST_SLICE {
            return;
        }
        let parser = PARSERS
            .iter()
            .find(|parser| parser.layout.major_version == layout.major_version);
        let answer = (parser.expect("every layout has a parser").rust)(bytes);
        let line = match &answer {
            Ok(record) if record.filename.contains(char::REPLACEMENT_CHARACTER) => return,
            Ok(record) => line(record),
            Err(_) => "error".to_string(),
        };
        self.inputs += 1;
        let kind = if layout.major_version == 2 { Kind::V2 } else { Kind::V3 };
        self.recording.input(kind, bytes);
        self.recording.line(&line);
    }
}

/// The fields in decimal, the USN by its 64 bits, and the name as four hexadecimal digits a unit, `-` if it is empty.
pub fn line(record: &UsnRecord) -> String {
    let mut name = String::new();
    for unit in record.filename.encode_utf16() {
        write!(name, "{unit:04x}").expect("a String takes any text");
    }
    if name.is_empty() {
        name.push('-');
    }
    format!(
        "{} {} {} {} {} {} {} {} {} {} {} {} {name}",
        record.mft_entry,
        record.mft_sequence,
        record.parent_mft_entry,
        record.parent_mft_sequence,
        record.usn as u64,
        record.timestamp.timestamp(),
        record.timestamp.timestamp_subsec_nanos(),
        record.reason.bits(),
        record.file_attributes.bits(),
        record.source_info,
        record.security_id,
        record.major_version,
    )
}
