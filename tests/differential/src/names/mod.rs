//! Names: the library's `utf16_decode` against `String::from_utf16_lossy`, by which the original decodes every name.
//! The subject is `names`.

pub mod cases;
pub mod comparison;

use crate::difference::{Case, Difference, Outcome};
use crate::library::DOMAIN;
use crate::random::Random;
use crate::Run;
use cases::{bytes_of, KNOWN, LONGEST};
use comparison::{compare, text, Room, OUT};

const SUBJECT: &str = "names";

/// Keeps this subject's random numbers apart from the others'.
const STREAM: u64 = 7;

/// A name is so much smaller than a record that a run has this many of them for each of its cases.
const NAMES_A_CASE: u64 = 10;

/// The longest name of boundary units.
const BOUNDARY_UNITS: u32 = 4;

/// The units of the long names, and how many of these there are.
const LONG: usize = 70_000;
const LONG_NAMES: u64 = 20;

pub fn run(run: &Run) -> Outcome {
    let exhaustive = exhaustive()?;
    println!("{SUBJECT}: {exhaustive} exhaustive cases, no difference");
    let cases = NAMES_A_CASE * run.cases;
    let mut bytes = Vec::new();
    for number in 0..cases {
        let mut random = Random::of_case(run.seed, STREAM, number);
        let kind = cases::fill(&mut random, LONGEST, &mut bytes);
        let case = Case {
            seed: Some(run.seed),
            kind,
            ..exhaustive_case(number, &bytes)
        };
        let again = |bytes: &[u8]| {
            let text = text(bytes);
            compare(bytes, text.as_bytes(), &every_room(text.len())).err()
        };
        let text = text(&bytes);
        let rooms = some_rooms(text.len(), &mut random);
        compare(&bytes, text.as_bytes(), &rooms).map_err(|finding| case.smallest(finding, again))?;
    }
    println!("{SUBJECT}: {cases} cases, seed {}, no difference", run.seed);
    Ok(())
}

/// An input of the fuzzer.
#[cfg(fuzzing)]
pub fn fuzzed(bytes: &[u8], random: &mut Random) -> Outcome {
    let text = text(bytes);
    let rooms = some_rooms(text.len(), random);
    compare(bytes, text.as_bytes(), &rooms).map_err(|finding| exhaustive_case(0, bytes).differs(finding))
}

/// The rooms where every one is tried: a text just full, one byte short, one of none, and longer ones; with answers of
/// no word, of one and of more.
fn every_room(length: usize) -> Vec<Room> {
    let texts = [length, length.saturating_sub(1), 0, length + 1, length + 9];
    let outs = [OUT, 0, OUT + 1, OUT + 3];
    let rooms = texts.map(|text| outs.map(|out| Room { text, out }));
    rooms.concat()
}

/// A text that is just full, one that is a byte short, and one of any size with any answer.
fn some_rooms(length: usize, random: &mut Random) -> [Room; 3] {
    let any = Room {
        text: random.below(length + 9),
        out: random.pick(&[OUT, OUT, OUT, OUT + 1, OUT + 3, 0]),
    };
    let [full, short] = [length, length.saturating_sub(1)].map(|text| Room { text, out: OUT });
    [full, short, any]
}

fn exhaustive_case(number: u64, bytes: &[u8]) -> Case<'_> {
    Case {
        subject: SUBJECT,
        seed: None,
        number,
        kind: "units",
        bytes,
    }
}

/// The exhaustive names and those at the domain's end; how many they are.
fn exhaustive() -> Result<u64, Difference> {
    let mut number = 0;
    let mut each = |bytes: &[u8], text: &[u8], rooms: &[Room]| {
        let case = exhaustive_case(number, bytes);
        number += 1;
        compare(bytes, text, rooms).map_err(|finding| case.differs(finding))
    };
    for (units, text) in KNOWN {
        each(&bytes_of(units), text, &every_room(text.len()))?;
    }
    // Every single unit, alone and before each kind of odd byte.
    for unit in 0..=u16::MAX {
        let bytes = bytes_of(&[unit]);
        let text = text(&bytes);
        let rooms = every_room(text.len());
        each(&bytes, text.as_bytes(), &rooms)?;
        for odd in [0x00, 0x41, 0xd8, 0xdc] {
            each(&[&bytes[..], &[odd]].concat(), text.as_bytes(), &rooms)?;
        }
    }
    for length in 0..=BOUNDARY_UNITS {
        cases::of_boundaries(length, &mut |units| {
            let text = String::from_utf16_lossy(units);
            each(&bytes_of(units), text.as_bytes(), &every_room(text.len()))
        })?;
    }
    cases::pairs(&mut |units| {
        let text = String::from_utf16_lossy(units);
        let rooms = [text.len(), text.len() - 1].map(|text| Room { text, out: OUT });
        each(&bytes_of(units), text.as_bytes(), &rooms)
    })?;
    let mut bytes = Vec::new();
    for long in 0..LONG_NAMES {
        cases::fill(&mut Random::of_case(0, STREAM, long), LONG, &mut bytes);
        let text = text(&bytes);
        each(&bytes, text.as_bytes(), &every_room(text.len()))?;
    }
    // The pages of these zeros are not in memory, and each of their units gives a byte of text.
    let zeros = vec![0; DOMAIN + 1];
    let text = &zeros[..DOMAIN / 2];
    for bytes in [&zeros[..DOMAIN], &zeros] {
        each(
            bytes,
            text,
            &[(100, OUT), (100, 0)].map(|(text, out)| Room { text, out }),
        )?;
    }
    Ok(number)
}
