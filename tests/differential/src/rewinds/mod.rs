//! Rewinds: `RewindEngine::rewind` of the original against the library's start and steps over lent tables. The subject is
//! `rewinds`.

mod beside;
mod calls;
mod cases;
mod edges;
mod histories;
mod library;
mod model;
mod refusals;
mod runs;
pub mod sample;
mod whole;

use crate::difference::{Case, Difference, Finding, Outcome};
use crate::library::DOMAIN;
use crate::paths::library::SLOT_WORDS;
use crate::random::Random;
use crate::Run;
use beside::Beside;
use cases::World;
use model::Listed;
use whole::Made;

const SUBJECT: &str = "rewinds";

/// Keeps this subject's random numbers apart from the others'.
const STREAM: u64 = 10;

/// A rewind is so much larger than a record that it counts for this many cases of a run.
const CASES_A_REWIND: u64 = 50;

/// From so many slots on a rewind by way of an index reads ahead; one in so many rewinds has such tables.
const LARGE: usize = 65536;
const LARGE_TABLE: usize = 1024;

pub fn run(run: &Run) -> Outcome {
    // The pages of these zeros are not in memory.
    let above = vec![0; DOMAIN + 1];
    let exhaustive = exhaustive(&above)?;
    println!("{SUBJECT}: {exhaustive} exhaustive cases, no difference");
    let rewinds = run.cases.div_ceil(CASES_A_REWIND);
    let mut made = Made::default();
    for number in 0..rewinds {
        let mut random = Random::of_case(run.seed, STREAM, number);
        let world = World::new(&mut random);
        random_case(&mut random, &world, &above, &mut made).map_err(|finding| {
            let bytes = [&world.journal[..], &world.image].concat();
            let case = Case {
                seed: Some(run.seed),
                bytes: &bytes,
                ..exhaustive_case(number, world.kind)
            };
            case.differs(finding)
        })?;
    }
    println!("{SUBJECT}: {rewinds} cases, {made}, seed {}, no difference", run.seed);
    run.met(SUBJECT, "a path with a name that restoring changes", made.restored)
}

/// An input of the fuzzer: its first byte says, in 256ths, which part of the rest is the journal; the image is what is left.
#[cfg(fuzzing)]
pub fn fuzzed(bytes: &[u8], random: &mut Random) -> Outcome {
    let Some((&part, both)) = bytes.split_first() else {
        return Ok(());
    };
    let (journal, image) = both.split_at(both.len() * usize::from(part) / 256);
    let world = World::of(crate::fuzz::FUZZED, journal.to_vec(), image.to_vec());
    let case = Case {
        bytes,
        ..exhaustive_case(0, world.kind)
    };
    random_case(random, &world, &[], &mut Made::default()).map_err(|finding| case.differs(finding))
}

/// A rewind of a reader's list over a table that is just large enough or larger, with other calls beside it.
fn random_case(random: &mut Random, world: &World, above: &[u8], made: &mut Made) -> Result<(), Finding> {
    let records = world.records(random)?;
    let before = world.before(random)?;
    let listed = Listed::of(world.names(), &records.words);
    let needed = before
        .needed(&listed)
        .map_err(|refusal| whole::unexpected("a start", "one that is not refused", &refusal.to_string()))?;
    let more = if random.one_in(LARGE_TABLE) { LARGE } else { 0 };
    let slots = needed + more;
    let words = [(); 2].map(|()| SLOT_WORDS * (slots + random.pick(&[0, 0, 0, 1, 5])) + random.pick(&[0, 0, 1, 6]));
    let mut beside = Beside {
        random,
        above,
        accepted: made.beside,
        refused: made.refused,
    };
    beside.starts(&listed, &before, needed)?;
    whole::rewind(&listed, &records.rust, before, words, &mut beside, made)?;
    let Beside { accepted, refused, .. } = beside;
    made.beside = accepted;
    made.refused = refused;
    Ok(())
}

fn exhaustive_case(number: u64, kind: &'static str) -> Case<'static> {
    Case {
        subject: SUBJECT,
        seed: None,
        number,
        kind,
        bytes: &[],
    }
}

/// The exhaustive rewinds; how many they are. `above` is a slice above the domain.
fn exhaustive(above: &[u8]) -> Result<u64, Difference> {
    let mut number = 0;
    let mut group = |kind, cases: Result<u64, Finding>| {
        number += cases.map_err(|finding| exhaustive_case(number, kind).differs(finding))?;
        Ok(())
    };
    group("known", edges::known())?;
    group("small journals", edges::small())?;
    group("deep folders", edges::deep())?;
    group("folders with names at sector ends", edges::sector_ends())?;
    group("offsets", edges::offsets())?;
    group("refused starts", refusals::starts(above))?;
    group("refused steps", refusals::steps(above))?;
    group("refused runs", refusals::runs(above))?;
    group("domain", refusals::domain(above))?;
    Ok(number)
}
