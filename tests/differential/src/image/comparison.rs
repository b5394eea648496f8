//! `mft_carve_entries` held against the Rust and against the scope: the number answered, the words of the list and of
//! the answer, those left alone, and the text at each name's place. The Rust carves the restored copy of the image, and
//! the stored image where its sector ends are the true ones.

use super::layout::{sound, ENTRY};
use super::restored::{restored, Kind};
use super::walk::{self, Counters, Entry};
use crate::carve::{carve_mft_entries, CarvedMftEntry, MftCarvingStats};
use crate::difference::{Case, Difference, Finding};
use crate::lent::{beginning, untouched, Lent, BEHIND};
use crate::library::{
    mft_carve_entries, ABOVE_DOMAIN, ACCEPTED, DOMAIN, ENTRY_FIELDS, ENTRY_NAME, ENTRY_WORDS, MFT_CARVING_FIELDS,
    NO_ROOM,
};
use crate::names::comparison::{self as decoding, text, Room};
use crate::paths::library::Sources;
use crate::paths::{model, places};
use crate::random::Random;
use crate::records::answers::named;
use std::fmt;
use std::ops::AddAssign;

const CALL: &str = "mft_carve_entries";

/// How many words an answer has.
const OUT: usize = MFT_CARVING_FIELDS.len();

/// What the scope's walk finds.
pub struct Walk {
    pub entries: Vec<Entry>,
    pub counters: Counters,
}

/// How many candidates had an array that fails a test, how many had true ends as stored, how many were carved that had
/// others, and how many of these have another name than the bytes that are stored.
#[derive(Debug, Default, Clone, Copy)]
pub struct Met {
    pub unsound: u64,
    pub as_stored: u64,
    pub restored: u64,
    pub names: u64,
}

impl fmt::Display for Met {
    fn fmt(&self, f: &mut fmt::Formatter<'_>) -> fmt::Result {
        write!(
            f,
            "{} of them restored and {} with another name than is stored, {} candidates with true ends as stored, \
             {} with an array that fails a test",
            self.restored, self.names, self.as_stored, self.unsound
        )
    }
}

impl AddAssign for Met {
    fn add_assign(&mut self, other: Self) {
        self.unsound += other.unsound;
        self.as_stored += other.as_stored;
        self.restored += other.restored;
        self.names += other.names;
    }
}

/// What our call answered, with all the words, those lent and those behind them.
struct Answer {
    number: u32,
    list: Vec<u64>,
    out: Vec<u64>,
}

impl Answer {
    fn of(image: &[u8], lent: Lent) -> Self {
        let mut list: Vec<u64> = (0..lent.list + BEHIND).map(untouched).collect();
        let mut out: Vec<u64> = (0..lent.out + BEHIND).map(untouched).collect();
        let number = mft_carve_entries(image, &mut list[..lent.list], &mut out[..lent.out]);
        Self { number, list, out }
    }

    /// The first thing in which the answer is not `number` with these entries and counters in front, and nothing else
    /// written.
    fn against(&self, number: u32, entries: &[Entry], counters: &[u64]) -> Option<String> {
        if self.number != number {
            return Some(format!("the answer is {}, not {number}", self.number));
        }
        let words = entries.as_flattened();
        if let Some((at, expected)) = differs(&self.list, words) {
            let field = match at < words.len() {
                true => format!("{} of entry {}", ENTRY_FIELDS[at % ENTRY_WORDS], at / ENTRY_WORDS),
                false => format!("word {at} of the list"),
            };
            return Some(format!("{field} is {}, not {expected}", self.list[at]));
        }
        let (at, expected) = differs(&self.out, counters)?;
        let field = MFT_CARVING_FIELDS.get(at).unwrap_or(&"a word behind the answer");
        Some(format!("{field} is {}, not {expected}", self.out[at]))
    }

    fn shown(&self) -> String {
        match self.number {
            ACCEPTED => format!(
                "{}, list {:?}",
                named(&MFT_CARVING_FIELDS, &self.out),
                beginning(&self.list)
            ),
            refusal => format!("refusal {refusal}"),
        }
    }
}

/// The first word that is not that of `front`, or behind these not untouched, with what it should be.
fn differs(words: &[u64], front: &[u64]) -> Option<(usize, u64)> {
    let expected = |at: usize| front.get(at).copied().unwrap_or(untouched(at));
    let at = (0..words.len()).find(|&at| words[at] != expected(at))?;
    Some((at, expected(at)))
}

/// The scope's answer to an image with so many entries, its tests in their order.
fn number(image: &[u8], entries: usize, lent: Lent) -> u32 {
    if image.len() > DOMAIN {
        ABOVE_DOMAIN
    } else if lent.out < OUT || entries > lent.list / ENTRY_WORDS {
        NO_ROOM
    } else {
        ACCEPTED
    }
}

impl Walk {
    pub fn of(image: &[u8]) -> Self {
        let (entries, counters) = walk::carve(image);
        Self { entries, counters }
    }

    fn shown(&self) -> String {
        format!(
            "{}, entries {:?}",
            named(&MFT_CARVING_FIELDS, &self.counters),
            beginning(&self.entries)
        )
    }

    /// Calls our carver with each number of words lent, and holds every answer to the walk.
    pub fn compare_ours(&self, image: &[u8], lent: &[Lent]) -> Result<(), Finding> {
        for &lent in lent {
            let ours = Answer::of(image, lent);
            let what = match number(image, self.entries.len(), lent) {
                ACCEPTED => ours.against(ACCEPTED, &self.entries, &self.counters),
                refusal => ours.against(refusal, &[], &[]),
            };
            if let Some(what) = what {
                return Err(Finding {
                    call: format!("{CALL}, {} words of list and {} of answer lent", lent.list, lent.out),
                    what,
                    rust: self.shown(),
                    ours: ours.shown(),
                });
            }
        }
        Ok(())
    }

    /// Holds the Rust's answer to the copy of the image to the walk over the stored one: the counters, every field of each
    /// entry, and its name to the text of the walk's bytes and to that of its place, which our decoders give too.
    fn compare_restored(&self, image: &[u8], copy: &[u8]) -> Result<(), Finding> {
        let (rust, stats) = carve_mft_entries(copy);
        let what = if counters(&stats) != self.counters {
            Some("the scope counts otherwise than the Rust".to_string())
        } else if rust.len() != self.entries.len() {
            Some("the scope finds another number of entries than the Rust".to_string())
        } else {
            let mut pairs = self.entries.iter().zip(&rust);
            pairs.find_map(|(words, entry)| against_rust(image, words, entry))
        };
        if let Some(what) = what {
            return Err(self.finding(what, "the restored copy", &rust, &stats));
        }
        let mut pairs = self.entries.iter().zip(&rust);
        pairs.try_for_each(|(words, entry)| compare_text(image, words, &entry.filename))
    }

    /// Holds the Rust's answer to the stored image to the walk, for each entry whose array fails no test and whose true
    /// sector ends are those stored: carved or not, and every field. The counters are equal where every candidate is such.
    fn compare_as_stored(&self, image: &[u8], kinds: &[Kind]) -> Result<(), Finding> {
        if !kinds.contains(&Kind::AsStored) {
            return Ok(());
        }
        let (rust, stats) = carve_mft_entries(image);
        let alike = kinds.iter().enumerate().filter(|(_, &kind)| kind == Kind::AsStored);
        let mut each = alike.map(|(index, _)| {
            let ours = self.entries.iter().find(|words| words[0] == (index * ENTRY) as u64);
            let theirs = rust.iter().find(|entry| entry.offset == index * ENTRY);
            match (ours, theirs) {
                (None, None) => None,
                (Some(words), Some(entry)) => against_rust(image, words, entry),
                _ => Some(format!("entry {index} is carved by one alone")),
            }
        });
        let all = !kinds.contains(&Kind::Unsound) && !kinds.contains(&Kind::Restored);
        let what = each.find_map(|what| what).or_else(|| {
            let differ = all && counters(&stats) != self.counters;
            differ.then(|| "the scope counts otherwise than the Rust".to_string())
        });
        match what {
            None => Ok(()),
            Some(what) => Err(self.finding(what, "the stored image", &rust, &stats)),
        }
    }

    fn finding(&self, what: String, carved: &str, rust: &[CarvedMftEntry], stats: &MftCarvingStats) -> Finding {
        Finding {
            call: format!("{CALL}, not called yet; the Rust carves {carved}"),
            what,
            rust: format!(
                "{}, entries {:?}",
                named(&MFT_CARVING_FIELDS, &counters(stats)),
                beginning(rust)
            ),
            ours: format!("the scope: {}", self.shown()),
        }
    }

    /// What became of the entries.
    fn met(&self, image: &[u8], kinds: &[Kind]) -> Met {
        let count = |kind| kinds.iter().filter(|&&other| other == kind).count() as u64;
        let restored = |words: &&Entry| kinds[words[0] as usize / ENTRY] == Kind::Restored;
        let changed = |words: &&Entry| bytes_at(image, words) != walk::name_bytes(image, words);
        Met {
            unsound: count(Kind::Unsound),
            as_stored: count(Kind::AsStored),
            restored: self.entries.iter().filter(restored).count() as u64,
            names: self.entries.iter().filter(changed).count() as u64,
        }
    }
}

/// The Rust's counters, in the order of ours.
fn counters(stats: &MftCarvingStats) -> Counters {
    [
        stats.bytes_scanned as u64,
        stats.candidates_examined,
        stats.entries_carved as u64,
        stats.rejected,
    ]
}

/// The first thing in which the words of an entry are not those of the Rust's.
fn against_rust(image: &[u8], words: &Entry, rust: &CarvedMftEntry) -> Option<String> {
    let mut expected = *words;
    expected[0] = rust.offset as u64;
    expected[1] = rust.entry_number;
    expected[2] = rust.sequence_number.into();
    expected[5] = rust.parent_entry;
    expected[6] = rust.parent_sequence.into();
    expected[7] = rust.is_directory.into();
    expected[8] = rust.is_in_use.into();
    if let Some(at) = (0..ENTRY_WORDS).find(|&at| words[at] != expected[at]) {
        let (scope, rust) = (words[at], expected[at]);
        return Some(format!(
            "{} is {scope} by the scope and {rust} by the Rust",
            ENTRY_FIELDS[at]
        ));
    }
    let text = text(&walk::name_bytes(image, words));
    (text != rust.filename).then(|| format!("the name reads {text:?} at the scope's place"))
}

/// The bytes that are stored at a name's place.
fn bytes_at<'a>(image: &'a [u8], words: &Entry) -> &'a [u8] {
    let [offset, length] = [words[ENTRY_NAME], words[ENTRY_NAME + 1]].map(|word| word as usize);
    &image[offset..offset + length]
}

/// The Rust's name of an entry is what our decoder makes of the walk's bytes, and what the place in the stored image is
/// decoded to, by the scope and by ours.
fn compare_text(image: &[u8], words: &Entry, filename: &str) -> Result<(), Finding> {
    let room = Room {
        text: filename.len(),
        out: decoding::OUT,
    };
    decoding::compare(&walk::name_bytes(image, words), filename.as_bytes(), &[room])?;
    let names = Sources { journal: &[], image };
    let place = [1, words[ENTRY_NAME], words[ENTRY_NAME + 1]];
    let decoded = model::name(names, place);
    if decoded != filename {
        return Err(Finding {
            call: format!("decoding of {place:?}, not called yet"),
            what: "the place is decoded to another name than the Rust's".to_string(),
            rust: format!("{filename:?}"),
            ours: format!("the scope: {decoded:?}"),
        });
    }
    places::compare(names, place, &[room])
}

/// The Rust, the scope and our carver on one image, which is lent what `lent` says for its number of entries.
pub fn compare(image: &[u8], lent: impl FnOnce(usize) -> Vec<Lent>) -> Result<(Walk, Met), Finding> {
    let walk = Walk::of(image);
    let copy = restored(image);
    walk.compare_restored(image, &copy.bytes)?;
    walk.compare_as_stored(image, &copy.entries)?;
    walk.compare_ours(image, &lent(walk.entries.len()))?;
    let met = walk.met(image, &copy.entries);
    Ok((walk, met))
}

/// The lists lent where every one is tried: just enough, one to ten words more, one to ten too few, none, and around so
/// many that no image of this length could fill them; and answers of too few words and of more than enough.
pub fn every_lent(length: usize, entries: usize) -> Vec<Lent> {
    let (full, most) = (ENTRY_WORDS * entries, ENTRY_WORDS * (length / ENTRY));
    let fewer = [1, 8, 9, 10, full].map(|less| full.saturating_sub(less));
    let more = [0, 1, 8, 9, 10].map(|more| full + more);
    let around = [most.saturating_sub(1), most, most + 1];
    let lists = [&fewer[..], &more, &around].concat();
    let mut lent: Vec<Lent> = lists.into_iter().map(|list| Lent { list, out: OUT }).collect();
    for out in [0, OUT - 1, OUT + 1, OUT + 3] {
        lent.extend([full.saturating_sub(1), full, most].map(|list| Lent { list, out }));
    }
    lent
}

/// The list that is just full, one a word short, and one more of any size.
pub fn some_lent(length: usize, entries: usize, random: &mut Random) -> Vec<Lent> {
    let (full, most) = (ENTRY_WORDS * entries, ENTRY_WORDS * (length / ENTRY));
    let list = match random.below(4) {
        0 => random.below(full + 10),
        1 => 0,
        _ => most + random.below(4),
    };
    let out = random.pick(&[OUT, OUT, OUT, OUT + 1, OUT - 1, 0]);
    vec![
        Lent { list: full, out: OUT },
        Lent {
            list: full.saturating_sub(1),
            out: OUT,
        },
        Lent { list, out },
    ]
}

/// Entries at both ends of the largest image, and one byte more, which is refused. `case` is the first one without its
/// bytes; gives how many cases there are.
pub fn largest(case: Case) -> Result<u64, Difference> {
    // The pages of this image are not in memory before they are written, and only those of the entries are.
    let mut image = vec![0; DOMAIN + 1];
    image[..ENTRY].copy_from_slice(&sound());
    image[DOMAIN - ENTRY..DOMAIN].copy_from_slice(&sound());
    let most = ENTRY_WORDS * (DOMAIN / ENTRY);
    let lent = |entries| {
        let full = ENTRY_WORDS * entries;
        [full, full - 1, most].map(|list| Lent { list, out: OUT }).to_vec()
    };
    let domain = Case {
        kind: "largest image",
        bytes: &image[..DOMAIN],
        ..case
    };
    let (walk, _) = compare(domain.bytes, lent).map_err(|finding| domain.differs(finding))?;
    let above = Case {
        number: case.number + 1,
        kind: "above the domain",
        bytes: &image,
        ..case
    };
    // The Rust has no such refusal.
    let lent = [(18, OUT), (0, OUT), (18, OUT - 1)].map(|(list, out)| Lent { list, out });
    walk.compare_ours(&image, &lent)
        .map_err(|finding| above.differs(finding))?;
    Ok(2)
}
