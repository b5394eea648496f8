//! Journals: the readers of the original that list the records of an extract, against the library's. The subjects are
//! `journal`, the scan of `usn/record.rs`, and `carver`, that of `usn/carver.rs`; the window has the same journals.

pub mod carver;
pub mod cases;
pub mod edges;
pub mod known;
mod listing;
pub mod sample;
pub mod scan;
pub mod walks;

use crate::difference::Outcome;
use crate::random::Random;
use crate::Run;
use listing::Lister;

/// Every journal is so much larger than a record that it counts for this many of a run's cases.
const COUNTS_FOR: u64 = 20;

/// A subject: the exhaustive cases of its reader, and then the random ones.
fn run(lister: &Lister, run: &Run) -> Outcome {
    let subject = lister.subject;
    let exhaustive = listing::exhaustive(lister)?;
    println!("{subject}: {exhaustive} exhaustive cases, no difference");
    let cases = run.cases.div_ceil(COUNTS_FOR);
    let mut total = 0;
    let mut bytes = Vec::new();
    for number in 0..cases {
        let mut random = Random::of_case(run.seed, lister.stream, number);
        let kind = cases::fill(&mut random, &mut bytes);
        listing::random_case(lister, (run.seed, number), kind, &bytes, &mut random)?;
        total += bytes.len();
    }
    println!(
        "{subject}: {cases} cases, {total} bytes, seed {}, no difference",
        run.seed
    );
    Ok(())
}
