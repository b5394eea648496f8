//! A call that lists the records of an extract, held against the Rust and against the scope: the number answered, the
//! words of the list and of the answer, and those left alone.

use super::known::Known;
use super::walks::Place;
use super::{edges, known};
use crate::difference::{Case, Difference, Finding, Outcome};
use crate::lent::{beginning, untouched, Lent, BEHIND};
use crate::library::{ABOVE_DOMAIN, ACCEPTED, DOMAIN, NO_ROOM};
use crate::random::Random;
use crate::records::answers::{compare_given, named};
use crate::records::edges::example;
use crate::records::layout::{V2, V3};
use crate::usn::UsnRecord;

/// A reader that lists records: the Rust's, ours, and the scope's walk.
pub struct Lister {
    pub subject: &'static str,
    /// Keeps this subject's random numbers apart from the others'.
    pub stream: u64,
    pub call: &'static str,
    /// The words that an accepted call writes beside the list.
    pub fields: &'static [&'static str],
    pub rust: fn(&[u8]) -> Given,
    pub ours: fn(&[u8], &mut [usize], &mut [u64]) -> u32,
    pub document: fn(&[u8]) -> Walk,
    /// What the scope says of a journal that it names.
    pub known: fn(&Known) -> Named,
}

/// What the Rust gives: the records, their offsets where it tells them, and the words beside the list.
pub struct Given {
    pub records: Vec<UsnRecord>,
    pub offsets: Option<Vec<usize>>,
    pub words: Vec<u64>,
}

/// What the scope's walk finds: the records' places, and the words beside the list.
pub struct Walk {
    pub places: Vec<Place>,
    pub words: Vec<u64>,
}

/// What the scope says of a journal by its name: the records' offsets, and the words beside the list.
pub struct Named {
    pub offsets: Vec<usize>,
    pub words: Vec<u64>,
}

/// What a call answered, with all the words, those lent and those behind them.
struct Answer {
    number: u32,
    list: Vec<usize>,
    out: Vec<u64>,
}

impl Answer {
    fn of(lister: &Lister, data: &[u8], lent: Lent) -> Self {
        let mut list: Vec<usize> = (0..lent.list + BEHIND).map(|at| untouched(at) as usize).collect();
        let mut out: Vec<u64> = (0..lent.out + BEHIND).map(untouched).collect();
        let number = (lister.ours)(data, &mut list[..lent.list], &mut out[..lent.out]);
        Self { number, list, out }
    }

    /// The first thing in which the answer is not `number` with these places and words in front, and nothing else
    /// written.
    fn against(&self, number: u32, places: &[Place], words: &[u64]) -> Option<String> {
        if self.number != number {
            return Some(format!("the answer is {}, not {number}", self.number));
        }
        let listed = |at: usize| {
            let place = places.get(at / 2)?;
            Some([place.offset, place.length][at % 2])
        };
        let expected = |at| listed(at).unwrap_or(untouched(at) as usize);
        if let Some(at) = (0..self.list.len()).find(|&at| self.list[at] != expected(at)) {
            return Some(format!(
                "word {at} of the list is {}, not {}",
                self.list[at],
                expected(at)
            ));
        }
        let expected = |at| words.get(at).copied().unwrap_or(untouched(at));
        let at = (0..self.out.len()).find(|&at| self.out[at] != expected(at))?;
        Some(format!("word {at} is {}, not {}", self.out[at], expected(at)))
    }

    fn shown(&self, fields: &[&str]) -> String {
        match self.number {
            ACCEPTED => format!("{}, list {:?}", named(fields, &self.out), beginning(&self.list)),
            refusal => format!("refusal {refusal}"),
        }
    }
}

/// The scope's answer to an extract with so many records, its tests in their order.
fn number(lister: &Lister, data: &[u8], records: usize, lent: Lent) -> u32 {
    if data.len() > DOMAIN {
        ABOVE_DOMAIN
    } else if lent.out < lister.fields.len() || records > lent.list / 2 {
        NO_ROOM
    } else {
        ACCEPTED
    }
}

/// Calls our reader with each number of words lent, and holds every answer to the walk.
fn compare_ours(lister: &Lister, data: &[u8], walk: &Walk, lent: &[Lent]) -> Result<(), Finding> {
    for &lent in lent {
        let ours = Answer::of(lister, data, lent);
        let what = match number(lister, data, walk.places.len(), lent) {
            ACCEPTED => ours.against(ACCEPTED, &walk.places, &walk.words),
            refusal => ours.against(refusal, &[], &[]),
        };
        if let Some(what) = what {
            return Err(Finding {
                call: format!(
                    "{}, {} words of list and {} of answer lent",
                    lister.call, lent.list, lent.out
                ),
                what,
                rust: walk.shown(lister.fields),
                ours: ours.shown(lister.fields),
            });
        }
    }
    Ok(())
}

impl Walk {
    fn shown(&self, fields: &[&str]) -> String {
        format!("{}, places {:?}", named(fields, &self.words), beginning(&self.places))
    }

    /// Holds the Rust's answer to the walk: the words, the offsets, and each record to its place.
    fn compare_rust(&self, lister: &Lister, data: &[u8], rust: &Given) -> Result<(), Finding> {
        let offsets: Vec<usize> = self.places.iter().map(|place| place.offset).collect();
        let what = if rust.words != self.words {
            Some("the scope counts otherwise than the Rust")
        } else if rust.records.len() != offsets.len() {
            Some("the scope finds another number of records than the Rust")
        } else if rust.offsets.as_ref().is_some_and(|given| *given != offsets) {
            Some("the scope finds other offsets than the Rust")
        } else {
            None
        };
        if let Some(what) = what {
            return Err(Finding {
                call: format!("{}, not called yet", lister.call),
                what: what.to_string(),
                rust: format!("{}, offsets {:?}", named(lister.fields, &rust.words), rust.offsets),
                ours: format!("the scope: {}", self.shown(lister.fields)),
            });
        }
        let mut given = offsets.iter().zip(&rust.records);
        given.try_for_each(|(&offset, record)| compare_given(data, offset, record))
    }
}

/// The Rust, the scope and our reader on one extract, which is lent what `lent` says for its number of records.
fn compare(lister: &Lister, data: &[u8], lent: impl FnOnce(usize) -> Vec<Lent>) -> Result<Walk, Finding> {
    let walk = (lister.document)(data);
    walk.compare_rust(lister, data, &(lister.rust)(data))?;
    compare_ours(lister, data, &walk, &lent(walk.places.len()))?;
    Ok(walk)
}

/// The lists lent where every one is tried: just enough, one and two words more, one and two too few, none, and so many
/// that no extract of this length could fill them; and answers of too few words and of more than enough.
fn every_lent(lister: &Lister, length: usize, records: usize) -> Vec<Lent> {
    let (words, full) = (lister.fields.len(), 2 * records);
    let fewer = [1, 2, full].map(|less| full.saturating_sub(less));
    let more = [full, full + 1, full + 2, length / 28 + 2];
    let lists = more.into_iter().chain(fewer);
    let mut lent: Vec<Lent> = lists.map(|list| Lent { list, out: words }).collect();
    for out in [0, words - 1, words + 1, words + 3] {
        lent.extend([full.saturating_sub(1), full].map(|list| Lent { list, out }));
    }
    lent
}

/// The list that is just full, one a word short, and one more of any size.
fn some_lent(lister: &Lister, length: usize, records: usize, random: &mut Random) -> Vec<Lent> {
    let (out, full) = (lister.fields.len(), 2 * records);
    let list = match random.below(4) {
        0 => random.below(full + 4),
        1 => 0,
        _ => length / 28 + random.below(4),
    };
    let lists = [full, full.saturating_sub(1), list];
    let mut lent: Vec<Lent> = lists.into_iter().map(|list| Lent { list, out }).collect();
    lent[2].out = random.pick(&[out, out, out, out + 1, out - 1, 0]);
    lent
}

/// A random case, by its seed and number.
pub fn random_case(
    lister: &Lister,
    (seed, number): (u64, u64),
    kind: &'static str,
    bytes: &[u8],
    random: &mut Random,
) -> Outcome {
    let case = Case {
        subject: lister.subject,
        seed: Some(seed),
        number,
        kind,
        bytes,
    };
    let lent = |records| some_lent(lister, bytes.len(), records, random);
    let again = |bytes: &[u8]| compare(lister, bytes, |records| every_lent(lister, bytes.len(), records)).err();
    compare(lister, bytes, lent).map_err(|finding| case.smallest(finding, again))?;
    Ok(())
}

/// The journals that the scope names, the exhaustive ones, and those at the domain's end; how many they are.
pub fn exhaustive(lister: &Lister) -> Result<u64, Difference> {
    let mut number = 0;
    for known in known::cases() {
        let case = exhaustive_case(lister, number, known.name, &known.bytes);
        compare_known(lister, &known).map_err(|finding| case.differs(finding))?;
        number += 1;
    }
    for input in edges::inputs() {
        let case = exhaustive_case(lister, number, input.kind, &input.bytes);
        let lent = |records| every_lent(lister, input.bytes.len(), records);
        compare(lister, &input.bytes, lent).map_err(|finding| case.differs(finding))?;
        number += 1;
    }
    largest(lister, number)
}

fn exhaustive_case<'a>(lister: &Lister, number: u64, kind: &'static str, bytes: &'a [u8]) -> Case<'a> {
    Case {
        subject: lister.subject,
        seed: None,
        number,
        kind,
        bytes,
    }
}

/// A journal that the scope names, with the answer that it gives.
fn compare_known(lister: &Lister, known: &Known) -> Result<(), Finding> {
    let lent = |records| every_lent(lister, known.bytes.len(), records);
    let walk = compare(lister, &known.bytes, lent)?;
    let named = (lister.known)(known);
    let offsets: Vec<usize> = walk.places.iter().map(|place| place.offset).collect();
    if offsets == named.offsets && walk.words == named.words {
        return Ok(());
    }
    Err(Finding {
        call: lister.call.to_string(),
        what: format!(
            "the scope names the offsets {:?} and the words {:?}",
            named.offsets, named.words
        ),
        rust: walk.shown(lister.fields),
        ours: "as the Rust".to_string(),
    })
}

/// Records at both ends of the largest extract, and one byte more, which is refused. `number` is the first case's;
/// gives how many cases there are.
fn largest(lister: &Lister, number: u64) -> Result<u64, Difference> {
    // The pages of this extract are not in memory before they are written, and only those of the records are.
    let mut extract = vec![0; DOMAIN + 1];
    let (first, last) = (example(&V2), example(&V3));
    extract[..first.len()].copy_from_slice(&first);
    extract[DOMAIN - last.len()..DOMAIN].copy_from_slice(&last);
    let case = exhaustive_case(lister, number, "largest extract", &extract[..DOMAIN]);
    let out = lister.fields.len();
    let lent = |records| [2 * records, 2 * records - 1].map(|list| Lent { list, out }).to_vec();
    let walk = compare(lister, case.bytes, lent).map_err(|finding| case.differs(finding))?;
    let case = exhaustive_case(lister, number + 1, "above the domain", &extract);
    // The Rust has no such refusal.
    let lent = [(4, out), (0, out), (4, out - 1)].map(|(list, out)| Lent { list, out });
    compare_ours(lister, &extract, &walk, &lent).map_err(|finding| case.differs(finding))?;
    Ok(number + 2)
}
