//! Tables and paths: `RewindEngine` of the original, its insertions, its seeding and its paths, against the library's
//! calls on a lent table. The subject is `paths`.

pub mod cases;
pub mod edges;
pub mod index;
pub mod library;
pub mod lists;
pub mod model;
pub mod pair;
pub mod places;
pub mod programs;
mod refusals;
pub mod sample;
mod sector_ends;
mod sectors;

use crate::difference::{Case, Difference, Finding, Outcome};
use crate::library::DOMAIN;
use crate::random::Random;
use crate::Run;
use cases::World;
use edges::Letters;
use programs::Made;

const SUBJECT: &str = "paths";

/// Keeps this subject's random numbers apart from the others'.
const STREAM: u64 = 9;

/// A program is so much larger than a record that it counts for this many cases of a run.
const CASES_A_PROGRAM: u64 = 10;

pub fn run(run: &Run) -> Outcome {
    // The pages of these zeros are not in memory.
    let above = vec![0; DOMAIN + 1];
    let exhaustive = exhaustive(&above)?;
    println!("{SUBJECT}: {exhaustive} exhaustive cases, no difference");
    let programs = run.cases.div_ceil(CASES_A_PROGRAM);
    let mut made = Made::default();
    for number in 0..programs {
        let mut random = Random::of_case(run.seed, STREAM, number);
        let world = World::new(&mut random);
        programs::run(&mut random, &world, &above, &mut made).map_err(|finding| {
            let bytes = [&world.journal[..], &world.image].concat();
            let case = Case {
                seed: Some(run.seed),
                bytes: &bytes,
                ..exhaustive_case(number, world.kind)
            };
            case.differs(finding)
        })?;
    }
    println!("{SUBJECT}: {programs} cases, {made}, seed {}, no difference", run.seed);
    run.met(
        SUBJECT,
        "a path with a name that restoring changes",
        made.restored_names,
    )?;
    run.met(SUBJECT, "a stored place that restoring changes", made.restored_places)
}

fn exhaustive_case(number: u64, kind: &'static str) -> Case<'static> {
    Case {
        subject: SUBJECT,
        seed: None,
        number,
        kind,
        bytes: &[],
    }
}

/// The exhaustive tables and paths; how many they are. `above` is a slice above the domain.
fn exhaustive(above: &[u8]) -> Result<u64, Difference> {
    let letters = &Letters::new();
    let mut number = 0;
    let mut group = |kind, cases: Result<u64, Finding>| {
        number += cases.map_err(|finding| exhaustive_case(number, kind).differs(finding))?;
        Ok(())
    };
    group("P9", edges::p9(letters))?;
    group("ladders", edges::ladders(letters))?;
    group("cycles", edges::cycles(letters))?;
    group("roots", edges::roots(letters))?;
    group("full tables", edges::full_tables(letters))?;
    group("full tables, lists", edges::full_lists(letters))?;
    group("equal keys", edges::equal_keys(letters))?;
    group("like keys", edges::like_keys(letters))?;
    group("digits", edges::digits(letters))?;
    group("places", refusals::places())?;
    group("sector ends", sector_ends::places())?;
    group("carved names at sector ends", sector_ends::carved())?;
    group("cut entries", sector_ends::cut())?;
    group("arrays", sector_ends::arrays())?;
    group("refused additions", refusals::additions(letters, above))?;
    group("refused paths", refusals::paths(letters, above))?;
    group("domain", refusals::domain(above))?;
    Ok(number)
}
