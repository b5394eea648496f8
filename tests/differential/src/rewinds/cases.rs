//! What a random rewind works with: a journal and an image, the list of a reader, and a table.

use super::histories::{History, ROOT};
use super::whole::{unexpected, Before};
use crate::difference::Finding;
use crate::image::cases as images;
use crate::journals::cases as journals;
use crate::library::{
    usn_carve_records, usn_parse_journal, usn_reader_give, usn_reader_new, usn_reader_next, ACCEPTED, ANSWER_WORDS,
    BUF_SIZE, CARVING_FIELDS, END, READER_WORDS, RECORD, SCAN_FIELDS, WANTS,
};
use crate::paths::cases::{carve, in_slice};
use crate::paths::library::{Key, Sources, SLOT_WORDS};
use crate::paths::model::Slot;
use crate::paths::pair::{Added, Pair, STORED};
use crate::paths::programs::NEVER;
use crate::random::Random;
use crate::usn::carver::carve_usn_records;
use crate::usn::record::parse_usn_journal;
use crate::usn::UsnRecord;
use crate::window::reading::records_of;
use std::io::Cursor;

/// The most changes of a history.
const CHANGES: usize = 20;

/// The longest journal that the Rust's window reads here: it calls itself at every word of rubbish.
const LONGEST_WINDOW: usize = 1 << 15;

/// The most slots of a table before a rewind that are not carved.
const SLOTS: usize = 6;

pub struct World {
    pub kind: &'static str,
    pub journal: Vec<u8>,
    pub image: Vec<u8>,
    keys: Vec<Key>,
}

/// Listed records: our list of them, and the Rust's.
pub struct Records {
    pub words: Vec<usize>,
    pub rust: Vec<UsnRecord>,
}

impl World {
    pub fn new(random: &mut Random) -> Self {
        let (kind, history) = match random.below(256) {
            0 => ("deep folder", History::deep(random)),
            1..=191 => ("history", History::new(random, CHANGES)),
            _ => return Self::any(random),
        };
        let keys = (0..8).map(|_| history.key(random)).collect();
        Self {
            kind,
            keys,
            journal: history.journal,
            image: history.image,
        }
    }

    /// A journal and an image of any kind.
    fn any(random: &mut Random) -> Self {
        let (mut journal, mut image) = (Vec::new(), Vec::new());
        let kind = journals::fill(random, &mut journal);
        if random.one_in(2) {
            images::fill(random, &mut image);
        }
        Self::of(kind, journal, image)
    }

    /// A journal and an image, with the keys that the journal names.
    pub fn of(kind: &'static str, journal: Vec<u8>, image: Vec<u8>) -> Self {
        let mut keys = vec![ROOT];
        for record in parse_usn_journal(&journal).expect("the scan has no error") {
            keys.push([record.mft_entry, record.mft_sequence.into()]);
            keys.push([record.parent_mft_entry, record.parent_mft_sequence.into()]);
        }
        Self {
            kind,
            journal,
            image,
            keys,
        }
    }

    pub fn names(&self) -> Sources<'_> {
        Sources {
            journal: &self.journal,
            image: &self.image,
        }
    }

    /// The records as a reader lists them: the scan, the carver or the window. Now and then some are left out, doubled or
    /// in another order, and the second words are others.
    pub fn records(&self, random: &mut Random) -> Result<Records, Finding> {
        let (offsets, rust) = match random.below(4) {
            0 if self.journal.len() <= LONGEST_WINDOW => {
                let rust = records_of(Cursor::new(&self.journal[..]));
                (windowed(&self.journal), rust)
            }
            1 => {
                let rust = carve_usn_records(&self.journal).0;
                let rust = rust.into_iter().map(|carved| carved.record).collect();
                (listed(&self.journal, usn_carve_records, CARVING_FIELDS.len(), 2), rust)
            }
            _ => {
                let rust = parse_usn_journal(&self.journal).expect("the scan has no error");
                (listed(&self.journal, usn_parse_journal, SCAN_FIELDS.len(), 0), rust)
            }
        };
        if 2 * rust.len() != offsets.len() {
            let ours = format!("{} words", offsets.len());
            return Err(unexpected("a reader", &format!("{} records", rust.len()), &ours));
        }
        let mut records = Records { words: offsets, rust };
        if random.one_in(8) && !records.rust.is_empty() {
            records = records.mixed(random);
        }
        if random.one_in(4) {
            for at in (1..records.words.len()).step_by(2) {
                records.words[at] = random.number() as usize;
            }
        }
        if random.one_in(8) {
            records.words.push(random.number() as usize);
        }
        Ok(records)
    }

    fn slot(&self, random: &mut Random) -> Slot {
        let mut key = random.pick(&self.keys);
        let mut parent = random.pick(&self.keys);
        if random.one_in(4) {
            key[1] = 0;
        }
        if random.one_in(4) {
            parent = random.pick(&[ROOT, [parent[0], 0], [78, 7]]);
        }
        let source = random.below(2) as u64;
        let slice = [self.journal.len(), self.image.len()][source as usize];
        let [source, offset, length] = in_slice(random, source, slice, NEVER);
        [key[0], key[1], parent[0], parent[1], source, offset, length]
    }

    /// The table before a rewind: empty, inserted into, seeded, both, or with slots of any keys, equal ones too.
    pub fn before(&self, random: &mut Random) -> Result<Before, Finding> {
        let slots: Vec<Slot> = (0..random.below(SLOTS)).map(|_| self.slot(random)).collect();
        let carved = carve(&self.image);
        let (inserted, seeded) = match random.below(6) {
            0 => (false, false),
            1 | 2 => (false, true),
            3 => (true, false),
            4 => (true, true),
            _ => {
                let pair = Pair::new(self.names(), slots.concat(), slots.len());
                return Ok(Before::of(pair).expect("the Rust has the keys"));
            }
        };
        let mut pair = Pair::empty(self.names(), SLOT_WORDS * (slots.len() + carved.rust.len()));
        if inserted {
            for slot in slots {
                let replace = random.one_in(2);
                pair.store(pair.given(), Added::One { slot, replace }, STORED)?;
            }
        }
        if seeded {
            let added = Added::Listed {
                entries: &carved.entries,
                rust: Some(&carved.rust),
            };
            pair.store(pair.given(), added, STORED)?;
        }
        Ok(Before::of(pair).expect("the Rust has the keys"))
    }
}

impl Records {
    /// Any of the records, in any order.
    fn mixed(&self, random: &mut Random) -> Self {
        let count = self.rust.len();
        let chosen: Vec<usize> = match random.below(3) {
            0 => (0..count).rev().collect(),
            1 => (0..count).filter(|_| !random.one_in(4)).collect(),
            _ => (0..random.below(count + 4)).map(|_| random.below(count)).collect(),
        };
        Self {
            words: chosen
                .iter()
                .flat_map(|&at| [self.words[2 * at], self.words[2 * at + 1]])
                .collect(),
            rust: chosen.iter().map(|&at| self.rust[at].clone()).collect(),
        }
    }
}

/// What one of our readers lists. Its answer has so many words, of which one is the number of records.
fn listed(
    journal: &[u8],
    reader: fn(&[u8], &mut [usize], &mut [u64]) -> u32,
    fields: usize,
    count: usize,
) -> Vec<usize> {
    let mut list = vec![0; 2 * (journal.len() / 56)];
    let mut out = vec![0; fields];
    let number = reader(journal, &mut list, &mut out);
    assert_eq!(number, ACCEPTED, "a reader takes a list with room for every record");
    list.truncate(2 * out[count] as usize);
    list
}

/// What our window gives, handed all that it wants.
fn windowed(journal: &[u8]) -> Vec<usize> {
    let (mut reader, mut out) = ([0; READER_WORDS], [0; ANSWER_WORDS]);
    let mut buffer = vec![0; BUF_SIZE];
    let mut list = Vec::new();
    let mut number = usn_reader_new(journal.len() as u64, &mut reader);
    loop {
        assert_eq!(number, ACCEPTED, "a window takes its own numbers");
        number = usn_reader_next(&mut reader, &buffer, &mut out);
        assert_eq!(number, ACCEPTED, "a window takes its own numbers");
        match out[0] {
            RECORD => list.extend([out[1] as usize, out[2] as usize]),
            WANTS => {
                let [from, bytes] = [out[1] as usize, out[2] as usize];
                number = usn_reader_give(&mut reader, &mut buffer, &journal[from..from + bytes], &mut out);
            }
            kind => {
                assert_eq!(kind, END, "a window's answer");
                return list;
            }
        }
    }
}
