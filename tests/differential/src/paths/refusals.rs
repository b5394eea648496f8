//! Calls that are refused, by every test and by several at once, places around the ends of their slices, and slices
//! around the domain's end; they depend on no seed.

use super::edges::{every_room, insert, listed, some_rooms, step, under, Letters};
use super::library::{Place, Sources, CHAIN_WORDS, SLOT_WORDS};
use super::lists::Room;
use super::model::Slot;
use super::pair::{Added, Given, Pair, STORED, TOLD};
use super::places;
use crate::difference::Finding;
use crate::lent::untouched;
use crate::library::DOMAIN;
use crate::names::comparison::{self as decoding, OUT};

/// Names that can be mistaken: a surrogate pair, of which each half may be another name, `\`, `.` and an odd byte.
const NAMES: [u8; 9] = [0x3d, 0xd8, 0x00, 0xde, b'\\', 0, b'.', 0, 0x41];

/// Offsets and lengths of which sums and rounding may go wrong.
const FAR: [u64; 5] = [1 << 32, 1 << 63, u64::MAX - 1, u64::MAX, 9];

/// The sources: the journal, and others, which are the image.
const SOURCES: [u64; 5] = [0, 1, 2, 1 << 32, u64::MAX];

/// Every place in and around a short journal and a shorter image.
fn all_places() -> Vec<Place> {
    let numbers: Vec<u64> = (0..NAMES.len() as u64 + 3).chain(FAR).collect();
    let mut places = Vec::new();
    for source in SOURCES {
        for &offset in &numbers {
            places.extend(numbers.iter().map(|&length| [source, offset, length]));
        }
    }
    places
}

/// Each place inserted, listed, stored in a table that comes with it, in the chain and beside it, and decoded.
pub fn places() -> Result<u64, Finding> {
    let names = Sources {
        journal: &NAMES,
        image: &NAMES[2..7],
    };
    let (above, key, other) = ([8, 8], [42, 3], [43, 3]);
    let mut cases = 0;
    for place in all_places() {
        let slot = under(above, key, place);
        for replace in [true, false] {
            let mut pair = Pair::empty(names, 2 * SLOT_WORDS);
            insert(&mut pair, under([5, 5], above, [0, 0, 2]))?;
            pair.store(pair.given(), Added::One { slot, replace }, STORED)?;
            some_rooms(&pair, &pair.ask(pair.given(), key)?)?;
        }
        let mut pair = Pair::empty(names, 2 * SLOT_WORDS);
        let entries = listed(&[slot, under(key, other, [1, 0, 1])]);
        pair.store(pair.given(), Added::list(&entries), STORED)?;
        for used in 0..=2 {
            let words = [under([5, 5], above, [0, 0, 2]), slot].concat();
            let pair = Pair::new(names, words, used);
            for asked in [key, above, other] {
                some_rooms(&pair, &pair.ask(pair.given(), asked)?)?;
            }
        }
        let length = places::length(names, place);
        let texts = [length, length.saturating_sub(1), 0, length + 1, length + 5];
        let rooms = texts.map(|text| [OUT, 0, OUT + 1].map(|out| decoding::Room { text, out }));
        places::compare(names, place, &rooms.concat())?;
        cases += 1;
    }
    Ok(cases)
}

/// The slices as they are, and each above the domain.
fn slices<'a>(names: Sources<'a>, above: &'a [u8]) -> [Sources<'a>; 4] {
    [
        names,
        Sources {
            journal: above,
            ..names
        },
        Sources { image: above, ..names },
        Sources {
            journal: above,
            image: above,
        },
    ]
}

/// Additions with every combination of what is refused: the answer's words, the used slots, the place, the slots left.
pub fn additions(letters: &Letters, above: &[u8]) -> Result<u64, Finding> {
    let mut cases = 0;
    for names in slices(letters.names(), above) {
        for used in [1, 2, 3, usize::MAX] {
            for place in [[0, 0, 2], [0, DOMAIN as u64, 2], [1, u64::MAX, 2]] {
                for key in (0..3).map(step) {
                    cases += every_addition(letters, Given { names, used }, under([5, 5], key, place))?;
                }
            }
        }
    }
    Ok(cases)
}

/// A slot inserted, inserted if absent and in a list, into a table of two slots.
fn every_addition(letters: &Letters, given: Given, slot: Slot) -> Result<u64, Finding> {
    let held: Vec<Slot> = (0..2).map(|at| under([5, 5], step(at), [0, 2, 2])).collect();
    let entries = listed(&[under([5, 5], step(2), [1, 0, 2]), slot]);
    let mut cases = 0;
    for added in [
        Added::One { slot, replace: true },
        Added::One { slot, replace: false },
        Added::list(&entries),
    ] {
        for out in [0, STORED, STORED + 1] {
            let mut pair = Pair::new(letters.names(), held.concat(), given.used.min(held.len()));
            pair.store(given, added, out)?;
            cases += 1;
        }
    }
    Ok(cases)
}

/// Paths and names with every combination of what is refused: the answer's words, the domain, the used slots, a place
/// in the chain, beside it and in a slot that is not used, the text.
pub fn paths(letters: &Letters, above: &[u8]) -> Result<u64, Finding> {
    let mut cases = 0;
    for names in slices(letters.names(), above) {
        for bad in 0..5 {
            // The second slot is beside the chain, the fourth is not used, and 4 is no slot.
            let parents = [[5, 5], [5, 5], step(0), step(2)];
            let slots = (0..4).map(|at| {
                let place = if at == bad { [1, 51, 2] } else { [1, 50, 2] };
                under(parents[at], step(at), place)
            });
            let words: Vec<u64> = slots.flatten().chain((0..3).map(untouched)).collect();
            let pair = Pair::new(letters.names(), words, 3);
            for used in [3, 0, 4, 5, usize::MAX] {
                for asked in [step(2), step(1), [5, 9], [77, 7]] {
                    every_room(&pair, Given { names, used }, asked)?;
                    cases += 1;
                }
            }
        }
        for place in [[0, 0, 2], [0, 51, 2], [1, u64::MAX, 1], [1, DOMAIN as u64, 2]] {
            let rooms = [0, 1, 2].map(|text| [0, 1, 2].map(|out| decoding::Room { text, out }));
            places::compare(names, place, &rooms.concat())?;
            cases += 1;
        }
    }
    Ok(cases)
}

/// Names at the ends of slices as long as the domain, and one byte longer: additions do not test it.
pub fn domain(above: &[u8]) -> Result<u64, Finding> {
    let full = &above[..DOMAIN];
    let end = DOMAIN as u64;
    let mut cases = 0;
    for [journal, image] in [[full, full], [full, &[]], [&[], full], [above, full], [full, above]] {
        let names = Sources { journal, image };
        for source in [0, 1] {
            for place in [
                [end - 2, 2],
                [end - 1, 1],
                [end, 0],
                [end - 1, 2],
                [end, 1],
                [end + 1, 0],
                [end, 2],
            ] {
                let place = [source, place[0], place[1]];
                let mut pair = Pair::empty(names, SLOT_WORDS);
                insert(&mut pair, under([5, 5], step(0), place))?;
                let question = pair.ask(pair.given(), step(0))?;
                for text in [0, 1, 3] {
                    let room = Room {
                        chain: 3,
                        text,
                        out: TOLD,
                    };
                    pair.resolve(&question, room)?;
                    pair.chain(
                        &question,
                        Room {
                            out: CHAIN_WORDS,
                            ..room
                        },
                    )?;
                    places::compare(names, place, &[decoding::Room { text, out: OUT }])?;
                }
                cases += 1;
            }
        }
    }
    Ok(cases)
}
