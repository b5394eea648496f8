//! The subject `parsers`: `parse_usn_record_v2` and `parse_usn_record_v3`, both on every input.

use super::answers::{compare_parser, LENT, PARSERS};
use super::layout::LAYOUTS;
use super::{cases, edges, lent};
use crate::difference::{Case, Difference, Outcome};
#[cfg(fuzzing)]
use crate::fuzz::FUZZED;
use crate::library::DOMAIN;
use crate::random::Random;
use crate::Run;

const SUBJECT: &str = "parsers";

/// Keeps this subject's random numbers apart from the others'.
const STREAM: u64 = 1;

pub fn run(run: &Run) -> Outcome {
    let exhaustive = exhaustive()?;
    println!("{SUBJECT}: {exhaustive} exhaustive cases, no difference");
    let mut bytes = Vec::new();
    for number in 0..run.cases {
        let mut random = Random::of_case(run.seed, STREAM, number);
        let (kind, _) = cases::fill(&mut random, &mut bytes);
        let lent = lent(&mut random);
        compare(Some(run.seed), number, kind, &bytes, &[lent])?;
    }
    println!("{SUBJECT}: {} cases, seed {}, no difference", run.cases, run.seed);
    Ok(())
}

/// An input of the fuzzer.
#[cfg(fuzzing)]
pub fn fuzzed(bytes: &[u8], random: &mut Random) -> Outcome {
    compare(None, 0, FUZZED, bytes, &[lent(random)])
}

/// Both parsers on one input, lent each number of words in turn.
fn compare(seed: Option<u64>, number: u64, kind: &'static str, bytes: &[u8], lent: &[usize]) -> Outcome {
    let case = Case {
        subject: SUBJECT,
        seed,
        number,
        kind,
        bytes,
    };
    for parser in &PARSERS {
        for &lent in lent {
            let again = |bytes: &[u8]| compare_parser(parser, bytes, lent).err();
            compare_parser(parser, bytes, lent).map_err(|finding| case.smallest(finding, again))?;
        }
    }
    Ok(())
}

/// The exhaustive inputs and those at the domain's end; how many they are.
fn exhaustive() -> Result<u64, Difference> {
    let mut number = 0;
    for input in edges::inputs() {
        compare(None, number, input.kind, &input.bytes, &LENT)?;
        number += 1;
    }
    // The pages of this slice are not in memory before they are touched, and the parsers touch the first ones only.
    let mut above = vec![0; DOMAIN + 1];
    let beginnings = LAYOUTS.map(edges::example);
    for beginning in [Vec::new()].iter().chain(&beginnings) {
        above[..beginning.len()].copy_from_slice(beginning);
        for (kind, slice) in [("domain", &above[..DOMAIN]), ("above the domain", &above[..])] {
            compare(None, number, kind, slice, &LENT)?;
            number += 1;
        }
    }
    Ok(number)
}
