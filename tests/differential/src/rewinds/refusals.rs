//! Calls that are refused, by every test and by several at once; they depend on no seed.

use super::calls::{next, start, Both, Told};
use super::edges::{Change, Journal};
use super::histories::{CREATE, NEW_NAME, OLD_NAME, ROOT};
use super::library::{State, RUN_WORDS, START_WORDS};
use super::model::Listed;
use super::runs::{run, Asked};
use super::whole::unexpected;
use crate::difference::Finding;
use crate::library::{ABOVE_DOMAIN, BAD_NUMBERS, DOMAIN, NAME_OUTSIDE, NOT_LISTED, NO_ROOM};
use crate::paths::edges::under;
use crate::paths::index::sizes;
use crate::paths::library::{Sources, SLOT_WORDS};
use crate::paths::lists::Room;
use crate::records::layout::V2;
use std::collections::HashSet;

/// Three records of two files, of which a table knows the first.
const RECORDS: [Change; 3] = [
    ([42, 3], ROOT, "a", OLD_NAME),
    ([43, 3], [42, 3], "b", CREATE),
    ([42, 3], ROOT, "c", NEW_NAME),
];

/// The journal of these, and the lists that are tried: theirs, and others of which one offset is no record's.
fn journal() -> (Journal, Vec<Vec<usize>>) {
    let journal = Journal::of(&V2, &RECORDS);
    let mut lists = vec![journal.list.clone()];
    let odd: Vec<usize> = journal.list.iter().copied().chain([9]).collect();
    lists.push(odd);
    for (at, offset) in [
        (0, 8),
        (2, journal.bytes.len() - 8),
        (4, journal.bytes.len()),
        (2, usize::MAX),
    ] {
        let mut list = journal.list.clone();
        list[at] = offset;
        lists.push(list);
    }
    (journal, lists)
}

/// The bytes as they are, and each slice above the domain.
fn slices<'a>(journal: &'a [u8], above: &'a [u8]) -> [Sources<'a>; 3] {
    let image = &journal[..6];
    [
        Sources { journal, image },
        Sources { journal: above, image },
        Sources { journal, image: above },
    ]
}

/// The words of a table that knows 42:3, its name inside the image or not, with room for so many slots.
fn table(place: [u64; 3], slots: usize) -> Both {
    Both::holding(&under(ROOT, [42, 3], place), SLOT_WORDS * slots)
}

/// Starts with every combination of what is refused: the answer's words, the domain, the used slots, the list, a place, the
/// slots of both tables.
pub fn starts(above: &[u8]) -> Result<u64, Finding> {
    let (journal, lists) = journal();
    let mut cases = 0;
    for names in slices(&journal.bytes, above) {
        for list in &lists {
            let listed = Listed::of(names, list);
            for place in [[1, 0, 2], [1, 5, 2], [0, u64::MAX, 2]] {
                for [first, forward] in [[2, 2], [1, 2], [2, 1], [1, 1], [3, 4], [0, 2]] {
                    for used in [1, 0, 2, 4, usize::MAX] {
                        for out in [START_WORDS, 0, START_WORDS - 1, START_WORDS + 1] {
                            let (mut first, mut forward) = (table(place, first), table(place, forward));
                            // The answer is held to the scope's; which it is does not matter here.
                            let _ = start(&listed, &mut first, used, &mut forward, out)?;
                            cases += 1;
                        }
                    }
                }
            }
        }
    }
    Ok(cases)
}

/// Steps likewise, with texts that are a byte short and just long enough, and at every position.
pub fn steps(above: &[u8]) -> Result<u64, Finding> {
    let (journal, lists) = journal();
    let mut cases = 0;
    for names in slices(&journal.bytes, above) {
        for list in &lists {
            let listed = Listed::of(names, list);
            for place in [[1, 0, 2], [1, 5, 2]] {
                for slots in [2, 1, 3, 0] {
                    for used in [1, 0, 2, 4, usize::MAX] {
                        for position in [0, 1, 2, 3, 4, usize::MAX] {
                            let state = State { used, position };
                            cases += rooms(&listed, &table(place, slots), state)?;
                        }
                    }
                }
            }
        }
    }
    Ok(cases)
}

/// A step with every room, each on a copy.
fn rooms(listed: &Listed, forward: &Both, state: State) -> Result<u64, Finding> {
    let mut cases = 0;
    for told in [Told::Path, Told::Chain] {
        for text in [0, 2, 3, 4, 5, 9] {
            for out in [told.words(), told.words() - 1, 0, told.words() + 2] {
                let room = Room { chain: 3, text, out };
                let _ = next(listed, &mut forward.clone(), state, told, room)?;
                cases += 1;
            }
        }
    }
    Ok(cases)
}

/// Runs likewise, with no ends lent and with some, and with words for an index and without: refused with 1, 5, 9, 12 and 7, each with
/// ends and without, they leave every lent word as it was.
pub fn runs(above: &[u8]) -> Result<u64, Finding> {
    let (journal, lists) = journal();
    let mut met = HashSet::new();
    let mut cases = 0;
    for names in slices(&journal.bytes, above) {
        for list in &lists {
            let listed = Listed::of(names, list);
            for place in [[1, 0, 2], [1, 5, 2]] {
                for slots in [2, 1, 3] {
                    for used in [1, 0, 2, 4, usize::MAX] {
                        for steps in [0, 1, 4] {
                            for out in [RUN_WORDS, RUN_WORDS - 1, 0, RUN_WORDS + 2] {
                                for turn in [0, 3] {
                                    let state = State { used, position: 0 };
                                    let asked = Asked {
                                        steps,
                                        text: 4,
                                        out,
                                        index: sizes(slots, turn),
                                    };
                                    let ran = run(&listed, &mut table(place, slots), state, asked)?;
                                    met.extend(ran.err().map(|refusal| (refusal, steps > 0)));
                                    cases += 1;
                                }
                            }
                        }
                    }
                }
            }
        }
    }
    let refusals = [ABOVE_DOMAIN, NO_ROOM, BAD_NUMBERS, NOT_LISTED, NAME_OUTSIDE];
    let all = refusals.map(|refusal| [(refusal, false), (refusal, true)]).concat();
    match met == all.into_iter().collect() {
        true => Ok(cases),
        false => Err(unexpected(
            "rewind_run",
            "refused by each of these",
            &format!("{met:?}"),
        )),
    }
}

/// Slices as long as the domain, with no record listed.
pub fn domain(above: &[u8]) -> Result<u64, Finding> {
    let full = &above[..DOMAIN];
    let mut cases = 0;
    for [journal, image] in [[full, full], [full, &[]], [&[], full], [above, full], [full, above]] {
        for list in [&[][..], &[7], &[0, 64], &[DOMAIN - 8, 64]] {
            let listed = Listed::of(Sources { journal, image }, list);
            let (mut first, mut forward) = (Both::unused(0), Both::unused(SLOT_WORDS));
            let _ = start(&listed, &mut first, 0, &mut forward, START_WORDS)?;
            cases += rooms(&listed, &forward, State { used: 0, position: 0 })?;
        }
    }
    Ok(cases)
}
