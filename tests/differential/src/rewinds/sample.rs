//! What is recorded of rewinds, with the Rust's answers: for each history a line, how many records the scan of the journal
//! gives and how many keys the Rust's table has after the rewind, which the entries of the image's restored copy seed, and
//! for each record a line, its path in hexadecimal.

use super::edges::{Change, Journal};
use super::histories::{History, CREATE, NEW_NAME, OLD_NAME, ROOT};
use crate::carve::carve_mft_entries;
use crate::image::layout::ENTRY;
use crate::image::restored::restored;
use crate::names::comparison::hex;
use crate::random::Random;
use crate::recording::{Kind, Recording};
use crate::records::edges::example;
use crate::records::layout::{V2, V3};
use crate::rewind::RewindEngine;
use crate::usn::record::parse_usn_journal;

/// The sample's own seed and its stream of random numbers.
const SEED: u64 = 20_261_115;
const HISTORIES: u64 = 1;

/// How many histories are recorded.
const RECORDED: usize = 60;

/// The most changes of a random history, its longest journal, its longest image and the most bytes of its paths.
const CHANGES: usize = 10;
const LONGEST_JOURNAL: usize = 2000;
const LONGEST_IMAGE: usize = 2 * ENTRY;
const LONGEST_PATHS: usize = 6000;

/// The most records, slots and bytes of a path.
const RECORDS: usize = 300;
const SLOTS: usize = 300;
const TEXT: usize = 8000;

struct Sample<'a> {
    histories: usize,
    recording: &'a mut Recording,
}

/// Adds the histories to a recording.
pub fn record(recording: &mut Recording) {
    let mut sample = Sample {
        histories: 0,
        recording,
    };
    known(&mut sample);
    random(&mut sample);
}

/// Record E, an empty journal, a file that is renamed, a folder that is moved into itself, and 258 folders without names in
/// each other.
fn known(sample: &mut Sample) {
    sample.add(&example(&V2), &[]);
    sample.add(&example(&V3), &[]);
    sample.add(&[], &[]);
    let renamed: [Change; 2] = [([42, 3], ROOT, "a", OLD_NAME), ([42, 3], ROOT, "b", NEW_NAME)];
    let moved: [Change; 3] = [
        ([42, 3], ROOT, "a", CREATE),
        ([42, 3], ROOT, "a", OLD_NAME),
        ([42, 3], [42, 3], "b", NEW_NAME),
    ];
    let key = |at: u64| if at == 0 { ROOT } else { [1000 + at, 1] };
    let deep: Vec<Change> = (1..=258).map(|at| (key(at), key(at - 1), "", CREATE)).collect();
    for records in [&renamed[..], &moved, &deep] {
        sample.add(&Journal::of(&V2, records).bytes, &[]);
    }
}

/// Random histories that are small, up to the number wanted.
fn random(sample: &mut Sample) {
    for number in 0.. {
        let mut random = Random::of_case(SEED, HISTORIES, number);
        let History { journal, image, .. } = History::new(&mut random, CHANGES);
        let paths = answer(&journal, &image).1;
        if journal.len() <= LONGEST_JOURNAL
            && image.len() <= LONGEST_IMAGE
            && paths.iter().map(String::len).sum::<usize>() <= LONGEST_PATHS
        {
            sample.add(&journal, &image);
        }
        if sample.histories == RECORDED {
            return;
        }
    }
}

/// What the Rust answers: how many keys its table has after the rewind, and the path of each record of the scan.
fn answer(journal: &[u8], image: &[u8]) -> (usize, Vec<String>) {
    let records = parse_usn_journal(journal).expect("the scan has no error");
    let mut rust = RewindEngine::new();
    rust.seed_from_carved(&carve_mft_entries(&restored(image).bytes).0);
    let resolved = rust.rewind(&records);
    let paths = resolved.into_iter().map(|record| record.full_path);
    (rust.lookup_len(), paths.collect())
}

impl Sample<'_> {
    fn add(&mut self, journal: &[u8], image: &[u8]) {
        let (used, paths) = answer(journal, image);
        let small = paths.len() <= RECORDS && used <= SLOTS && paths.iter().all(|path| path.len() <= TEXT);
        assert!(small, "a recorded history has room in the program that replays it");
        self.histories += 1;
        self.recording.input(Kind::Journal, journal);
        self.recording.input(Kind::Image, image);
        self.recording.input(Kind::Rewind, &[]);
        self.recording.line(&format!("records {} used {used}", paths.len()));
        for path in paths {
            self.recording.line(&hex(path.as_bytes()));
        }
    }
}
