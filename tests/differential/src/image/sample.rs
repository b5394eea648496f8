//! What is recorded of images and names, with the Rust's answers to them: of an image a line with the counters and a line
//! for each entry, of a name a line with its text in hexadecimal. The image is recorded as it is stored; the Rust carves
//! its restored copy.

use super::layout::ENTRY;
use super::restored::restored;
use super::{cases, edges, known};
use crate::carve::carve_mft_entries;
use crate::names::cases::{bytes_of, fill, BOUNDARIES, KNOWN};
use crate::names::comparison::{hex, text};
use crate::random::Random;
use crate::recording::{Kind, Recording};

/// The sample's own seed, and the three streams of random numbers that it takes.
const SEED: u64 = 20_261_116;
const EDGES: u64 = 1;
const CASES: u64 = 2;
const NAMES: u64 = 3;

/// How many images and names are recorded, beside the cuts of volumes, which are the last inputs.
const IMAGES: usize = 72;
const RECORDED_NAMES: usize = 60;

/// The kinds of exhaustive entries of which some are taken, beside all images that the scope names; random ones make up
/// the rest.
const EXHAUSTIVE: [&str; 24] = [
    "first attribute",
    "sequence",
    "flags",
    "entry number",
    "signature",
    "attribute length",
    "length of the name's attribute",
    "content size",
    "content offset",
    "name length",
    "name at the end",
    "non-resident flag",
    "type",
    "end among names",
    "many attributes",
    "namespaces",
    "attribute in a content",
    "array count",
    "array offset",
    "stored sector end",
    "check value",
    "name at a sector end",
    "attribute at a sector end",
    "true sector end in an attribute",
];

/// The longest image that is recorded, and the shortest random one.
const LONGEST_IMAGE: usize = 4 * ENTRY;
const SHORTEST_RANDOM: usize = 2 * ENTRY;

/// The most units of a random name.
const LONGEST_NAME: usize = 24;

/// Entries of volumes, those of the first with names across sector ends; tests/samples/README.md says how they are made.
const VOLUMES: [&[u8]; 2] = [
    include_bytes!("../../../samples/sector-ends.bin"),
    include_bytes!("../../../samples/mkntfs-cut.bin"),
];

struct Sample<'a> {
    images: usize,
    recording: &'a mut Recording,
}

/// Adds the images and names to a recording.
pub fn record(recording: &mut Recording) {
    let mut sample = Sample { images: 0, recording };
    for known in known::cases() {
        sample.image(&known.bytes);
    }
    exhaustive(&mut sample);
    random(&mut sample);
    names(&mut sample);
    for volume in VOLUMES {
        sample.image(volume);
    }
}

/// Of each kind of exhaustive entry one that is carved and one that is not, where it has them.
fn exhaustive(sample: &mut Sample) {
    let entries = edges::entries();
    for (number, kind) in (0..).zip(EXHAUSTIVE) {
        let mut random = Random::of_case(SEED, EDGES, number);
        let of_kind = entries.iter().filter(|entry| entry.kind == kind);
        let (rejected, carved): (Vec<_>, Vec<_>) =
            of_kind.partition(|entry| carve_mft_entries(&restored(&entry.bytes).bytes).0.is_empty());
        for drawn in [carved, rejected] {
            if !drawn.is_empty() {
                sample.image(&random.pick(&drawn).bytes);
            }
        }
    }
}

/// Random images, up to the number wanted.
fn random(sample: &mut Sample) {
    let mut bytes = Vec::new();
    let mut case = 0;
    while sample.images < IMAGES {
        cases::fill(&mut Random::of_case(SEED, CASES, case), &mut bytes);
        if (SHORTEST_RANDOM..=LONGEST_IMAGE).contains(&bytes.len()) {
            sample.image(&bytes);
        }
        case += 1;
    }
}

/// The names that the scope knows, the empty one, each boundary unit, and random ones up to the number wanted.
fn names(sample: &mut Sample) {
    let mut names: Vec<Vec<u8>> = KNOWN.iter().map(|(units, _)| bytes_of(units)).collect();
    names.push(Vec::new());
    names.extend(BOUNDARIES.iter().map(|&unit| bytes_of(&[unit])));
    let mut case = 0;
    while names.len() < RECORDED_NAMES {
        let mut bytes = Vec::new();
        fill(&mut Random::of_case(SEED, NAMES, case), LONGEST_NAME, &mut bytes);
        names.push(bytes);
        case += 1;
    }
    for name in names {
        sample.name(&name);
    }
}

impl Sample<'_> {
    /// Adds an image with the entries and counters that the Rust has of its restored copy.
    fn image(&mut self, bytes: &[u8]) {
        self.images += 1;
        self.recording.input(Kind::Entries, bytes);
        let (entries, stats) = carve_mft_entries(&restored(bytes).bytes);
        self.recording.line(&format!(
            "entries {} candidates {} rejected {} bytes {}",
            stats.entries_carved, stats.candidates_examined, stats.rejected, stats.bytes_scanned
        ));
        for entry in entries {
            self.recording.line(&format!(
                "{} {} {} {} {} {} {} {}",
                entry.offset,
                entry.entry_number,
                entry.sequence_number,
                entry.parent_entry,
                entry.parent_sequence,
                u8::from(entry.is_directory),
                u8::from(entry.is_in_use),
                hex(entry.filename.as_bytes()),
            ));
        }
    }

    /// Adds a name with its text.
    fn name(&mut self, bytes: &[u8]) {
        self.recording.input(Kind::Name, bytes);
        self.recording.text(&text(bytes));
    }
}
