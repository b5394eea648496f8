//! Images: the carver of MFT entries, `carve.rs` of the original, against the library's. The subject is `image`.

pub mod arrays;
pub mod cases;
mod comparison;
mod edges;
pub mod ends;
pub mod file;
mod known;
pub mod layout;
pub mod restored;
pub mod sample;
pub mod walk;

use crate::difference::{Case, Difference, Finding, Outcome};
use crate::random::Random;
use crate::Run;
use arrays::as_stored;
use comparison::{compare, every_lent, largest, some_lent, Met};
use known::Known;
use layout::{sound, ENTRY};

const SUBJECT: &str = "image";

/// Keeps this subject's random numbers apart from the others'.
const STREAM: u64 = 8;

/// The exhaustive images and then random ones, until they have as many entries as the run has cases.
pub fn run(run: &Run) -> Outcome {
    let exhaustive = exhaustive()?;
    println!("{SUBJECT}: {exhaustive} exhaustive cases, no difference");
    let (mut entries, mut images, mut carved) = (0, 0, 0);
    let mut met = Met::default();
    let mut bytes = Vec::new();
    while entries < run.cases {
        let mut random = Random::of_case(run.seed, STREAM, images);
        let (kind, written) = cases::fill(&mut random, &mut bytes);
        let case = Case {
            seed: Some(run.seed),
            ..exhaustive_case(images, kind, &bytes)
        };
        let lent = |found| some_lent(bytes.len(), found, &mut random);
        let again = |bytes: &[u8]| compare(bytes, |found| every_lent(bytes.len(), found)).err();
        let (walk, of_image) = compare(&bytes, lent).map_err(|finding| case.smallest(finding, again))?;
        met += of_image;
        carved += walk.entries.len();
        entries += written;
        images += 1;
    }
    println!(
        "{SUBJECT}: {images} cases, {entries} entries, {carved} carved, {met}, seed {}, no difference",
        run.seed
    );
    run.met(SUBJECT, "a name that restoring changes", met.names)?;
    run.met(SUBJECT, "true ends as stored", met.as_stored)?;
    run.met(SUBJECT, "an array that fails a test", met.unsound)
}

/// An input of the fuzzer.
#[cfg(fuzzing)]
pub fn fuzzed(bytes: &[u8], random: &mut Random) -> Outcome {
    let case = exhaustive_case(0, crate::fuzz::FUZZED, bytes);
    let lent = |found| some_lent(bytes.len(), found, random);
    compare(bytes, lent).map_err(|finding| case.differs(finding))?;
    Ok(())
}

fn exhaustive_case<'a>(number: u64, kind: &'static str, bytes: &'a [u8]) -> Case<'a> {
    Case {
        subject: SUBJECT,
        seed: None,
        number,
        kind,
        bytes,
    }
}

/// The images that the scope names, the exhaustive ones, and those at the domain's end; how many they are. An
/// exhaustive entry stands between two sound ones, so that what is read outside of it shows; where its true ends are
/// alike, once more with these stored, between two that have theirs stored too.
fn exhaustive() -> Result<u64, Difference> {
    let mut number = 0;
    for known in known::cases() {
        let case = exhaustive_case(number, known.name, &known.bytes);
        compare_known(&known).map_err(|finding| case.differs(finding))?;
        number += 1;
    }
    let mut each = |kind, bytes: &[u8]| {
        let case = exhaustive_case(number, kind, bytes);
        number += 1;
        let lent = |entries| every_lent(bytes.len(), entries);
        compare(bytes, lent).map_err(|finding| case.differs(finding))
    };
    for image in edges::images() {
        each(image.kind, &image.bytes)?;
    }
    let mut between = sound().repeat(3);
    let mut alike = as_stored(&sound()).expect("its true ends are alike").repeat(3);
    for entry in edges::entries() {
        between[ENTRY..2 * ENTRY].copy_from_slice(&entry.bytes);
        each(entry.kind, &between)?;
        if let Some(bytes) = as_stored(&entry.bytes) {
            alike[ENTRY..2 * ENTRY].copy_from_slice(&bytes);
            each(entry.kind, &alike)?;
        }
    }
    Ok(number + largest(exhaustive_case(number, "", &[]))?)
}

/// An image that the scope names, with the answer that it gives.
fn compare_known(known: &Known) -> Result<(), Finding> {
    let (walk, _) = compare(&known.bytes, |entries| every_lent(known.bytes.len(), entries))?;
    let units: Vec<u64> = walk.entries.iter().map(|words| words[4] / 2).collect();
    let carved: Vec<u64> = known.carved.into_iter().collect();
    if units == carved && walk.counters[3] == known.rejected {
        return Ok(());
    }
    Err(Finding {
        call: "mft_carve_entries".to_string(),
        what: format!("the scope names {carved:?} units and {} rejected", known.rejected),
        rust: format!("{units:?} units, counters {:?}", walk.counters),
        ours: "as the Rust".to_string(),
    })
}
