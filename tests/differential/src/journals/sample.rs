//! What is recorded of the readers: journals and the Rust's answers to them: a line with the number of records, for the
//! carver with its counters, and a line for each record, for the carver with its offset in front.

use super::{cases, edges, known};
use crate::random::Random;
use crate::recording::{Kind, Recording};
use crate::records::sample::line;
use crate::usn::carver::carve_usn_records;
use crate::usn::reader::UsnJournalReader;
use crate::usn::record::parse_usn_journal;
use crate::usn::UsnRecord;
use std::io::Cursor;

/// The sample's own seed, and the two streams of random numbers that it takes.
const SEED: u64 = 20_261_115;
const EDGES: u64 = 1;
const CASES: u64 = 2;

/// How many journals are recorded, each for every reader.
const JOURNALS: usize = 40;

/// How many exhaustive journals of each kind are taken, beside all that the scope names; random ones make up the
/// rest.
const EXHAUSTIVE: [(&str, usize); 7] = [
    ("length and version", 3),
    ("name place", 2),
    ("overlap", 2),
    ("cut journal", 2),
    ("zeros", 1),
    ("a byte among zeros", 1),
    ("packed records", 1),
];

/// The longest journal that is recorded, and the shortest random one.
const LONGEST_JOURNAL: usize = 2000;
const SHORTEST_RANDOM: usize = 400;

/// A reader, and the Rust's answer.
type Reader = (Kind, fn(&[u8]) -> Answer);

const READERS: [Reader; 3] = [(Kind::Scan, scan), (Kind::Carve, carve), (Kind::Window, window)];

/// The first line of an answer, and the records with what stands in front of each.
struct Answer {
    first: String,
    records: Vec<(String, UsnRecord)>,
}

struct Sample<'a> {
    journals: usize,
    recording: &'a mut Recording,
}

/// Adds the journals to a recording.
pub fn record(recording: &mut Recording) {
    let mut sample = Sample { journals: 0, recording };
    for known in known::cases() {
        sample.add(&known.bytes);
    }
    exhaustive(&mut sample);
    random(&mut sample);
}

/// Of each kind of exhaustive journal as many as the table says, drawn from the short ones.
fn exhaustive(sample: &mut Sample) {
    let inputs = edges::inputs();
    for (number, (kind, wanted)) in (0..).zip(EXHAUSTIVE) {
        let mut random = Random::of_case(SEED, EDGES, number);
        let short = |input: &&edges::Input| input.kind == kind && input.bytes.len() <= LONGEST_JOURNAL;
        let mut of_kind: Vec<_> = inputs.iter().filter(short).collect();
        for _ in 0..wanted {
            let input = of_kind.swap_remove(random.below(of_kind.len()));
            sample.add(&input.bytes);
        }
    }
}

/// Random journals, up to the number wanted.
fn random(sample: &mut Sample) {
    let mut bytes = Vec::new();
    let mut case = 0;
    while sample.journals < JOURNALS {
        cases::fill(&mut Random::of_case(SEED, CASES, case), &mut bytes);
        if bytes.len() >= SHORTEST_RANDOM {
            sample.add(&bytes);
        }
        case += 1;
    }
}

impl Sample<'_> {
    /// Adds a journal with every reader's answer. A long journal is left out, and so is one of which a reader gives a
    /// name with U+FFFD, whose text does not tell the units.
    fn add(&mut self, bytes: &[u8]) {
        let answers = READERS.map(|(reader, read)| (reader, read(bytes)));
        let mut records = answers.iter().flat_map(|(_, answer)| &answer.records);
        let untold = records.any(|(_, record)| record.filename.contains(char::REPLACEMENT_CHARACTER));
        if untold || bytes.len() > LONGEST_JOURNAL {
            return;
        }
        self.journals += 1;
        for (reader, answer) in answers {
            self.recording.input(reader, bytes);
            self.recording.line(&answer.first);
            for (before, record) in answer.records {
                self.recording.line(&format!("{before}{}", line(&record)));
            }
        }
    }
}

impl Answer {
    /// The answer of a reader that gives records alone.
    fn of(records: Vec<UsnRecord>) -> Self {
        Self {
            first: format!("records {}", records.len()),
            records: records.into_iter().map(|record| (String::new(), record)).collect(),
        }
    }
}

fn scan(bytes: &[u8]) -> Answer {
    Answer::of(parse_usn_journal(bytes).expect("the scan has no error"))
}

fn carve(bytes: &[u8]) -> Answer {
    let (carved, stats) = carve_usn_records(bytes);
    let (candidates, timestamp) = (stats.candidates_examined, stats.rejected_timestamp);
    let (count, structure) = (stats.records_carved, stats.rejected_structure);
    let records = carved
        .into_iter()
        .map(|found| (format!("{} ", found.offset), found.record));
    Answer {
        first: format!("records {count} candidates {candidates} timestamp {timestamp} structure {structure}"),
        records: records.collect(),
    }
}

fn window(bytes: &[u8]) -> Answer {
    let reader = UsnJournalReader::new(Cursor::new(bytes)).expect("a slice has no errors");
    Answer::of(reader.map(|record| record.expect("a slice has no errors")).collect())
}
