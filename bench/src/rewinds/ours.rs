//! Our calls, timed.

use super::history::History;
use super::rust::paths;
use crate::cost::{clock, Cost};
use crate::layout::ENTRY;
use crate::library::{mft_carve_entries, usn_parse_journal, ACCEPTED, ENTRY_WORDS, MFT_CARVING_FIELDS};
use crate::paths::library::{table_seed, table_seed_indexed, Sources, SLOT_WORDS};
use crate::rewind::{EntryKey, RewindEngine};
use crate::rewind_library::{
    rewind_next, rewind_run, rewind_start, rewind_start_indexed, RunLent, State, PATH_STEP_WORDS, RUN_WORDS,
    START_WORDS,
};
use crate::sum::Sum;
use crate::texts::Texts;
use std::hint::black_box;

/// A table in lent memory.
struct Slots {
    words: Vec<u64>,
    used: usize,
}

impl Slots {
    /// An empty table of so many slots, in memory that has been written.
    fn cleared(slots: usize) -> Self {
        let mut words = black_box(vec![0; SLOT_WORDS * slots]);
        words.fill(0);
        Self { words, used: 0 }
    }

    fn seed(&mut self, names: Sources, entries: &[u64]) {
        let mut out = [0];
        let answer = table_seed(names, &mut self.words, self.used, entries, &mut out);
        assert_eq!(answer, ACCEPTED, "the table has room");
        self.used = out[0] as usize;
    }

    fn seed_indexed(&mut self, names: Sources, entries: &[u64], index: &mut Index) {
        let mut out = [0];
        let answer = table_seed_indexed(names, &mut self.words, self.used, entries, index.lent(), &mut out);
        assert_eq!(answer, ACCEPTED, "the table has room");
        self.used = out[0] as usize;
    }

    /// The names of the used slots alone, out of the image, where the slots then have them.
    fn take_names(&mut self, image: &[u8]) -> Vec<u8> {
        let mut names = Vec::new();
        for slot in self.words.chunks_exact_mut(SLOT_WORDS).take(self.used) {
            let [offset, length] = [slot[5], slot[6]].map(|word| word as usize);
            slot[5] = names.len() as u64;
            names.extend_from_slice(&image[offset..offset + length]);
        }
        names.shrink_to_fit();
        names
    }
}

/// Words for an index of a table.
struct Index {
    heads: Vec<u64>,
    nexts: Vec<u64>,
}

impl Index {
    /// A head and a next for each slot, in memory that has been written.
    fn cleared(slots: usize) -> Self {
        let [heads, nexts] = [(); 2].map(|()| {
            let mut words = black_box(vec![0; slots]);
            words.fill(0);
            words
        });
        Self { heads, nexts }
    }

    fn lent(&mut self) -> [&mut [u64]; 2] {
        [&mut self.heads, &mut self.nexts]
    }
}

/// The entries are carved before the time begins. There is a slot for each.
pub fn seed(history: &History, _: &Sum) -> (Cost, Sum) {
    let entries = carved(history);
    let mut slots = Slots::cleared(history.entries);
    let names = Sources {
        journal: &[],
        image: &history.image,
    };
    let (cost, ()) = clock(|| slots.seed(names, &entries));
    (cost, seeded(&slots, &history.image, &entries))
}

/// The same by way of an index.
pub fn seed_indexed(history: &History, _: &Sum) -> (Cost, Sum) {
    let entries = carved(history);
    let mut slots = Slots::cleared(history.entries);
    let mut index = Index::cleared(history.entries);
    let names = Sources {
        journal: &[],
        image: &history.image,
    };
    let (cost, ()) = clock(|| slots.seed_indexed(names, &entries, &mut index));
    (cost, seeded(&slots, &history.image, &entries))
}

/// What a rewind begins with: the table, seeded, with the names that its slots have, the forward table, and the listed records. Both
/// tables have a slot for each carved entry and each record.
struct Ready {
    names: Vec<u8>,
    records: Vec<usize>,
    slots: Slots,
    forward: Slots,
}

impl Ready {
    fn of(history: &History) -> Self {
        let room = history.entries + history.records;
        let mut slots = Slots::cleared(room);
        slots.seed_indexed(history.names(), &carved(history), &mut Index::cleared(room));
        Self {
            names: slots.take_names(&history.image),
            records: listed(history),
            slots,
            forward: Slots::cleared(room),
        }
    }
}

/// The records are listed and the table is seeded before the time begins, and the texts just fill what is lent for them. Of the image
/// the names alone are lent.
pub fn rewind(history: &History, expected: &Sum) -> (Cost, Sum) {
    let mut ready = Ready::of(history);
    let names = Sources {
        journal: &history.journal,
        image: &ready.names,
    };
    let mut texts = black_box(Texts::fresh(history.records, expected.text));
    texts.clear();
    let (cost, ()) = clock(|| {
        start(names, &ready.records, &mut ready.slots, &mut ready.forward);
        // Each step is lent the one record that it is about: it tests all that it is lent.
        texts.write(ready.records.chunks_exact(2), |record, text| {
            step(names, record, &mut ready.forward, text)
        });
    });
    let mut sum = Sum::default();
    texts.iter().for_each(|text| sum.add_text(text));
    (cost, sum)
}

/// The same in two calls, by way of an index.
pub fn rewind_indexed(history: &History, expected: &Sum) -> (Cost, Sum) {
    let mut ready = Ready::of(history);
    let mut index = Index::cleared(history.entries + history.records);
    let mut text = black_box(vec![0; expected.text]);
    text.fill(0);
    let mut ends = black_box(vec![0; history.records]);
    ends.fill(0);
    let (cost, ()) = clock(|| run(&history.journal, &mut ready, &mut index, &mut ends, &mut text));
    let mut sum = Sum::default();
    let mut from = 0;
    for &end in &ends {
        sum.add_text(&text[from..end as usize]);
        from = end as usize;
    }
    (cost, sum)
}

/// The whole rewind.
fn run(journal: &[u8], ready: &mut Ready, index: &mut Index, ends: &mut [u64], text: &mut [u8]) {
    let names = Sources {
        journal,
        image: &ready.names,
    };
    let mut out = [0; START_WORDS];
    let (slots, forward) = (&mut ready.slots, &mut ready.forward.words);
    let answer = rewind_start_indexed(
        names,
        &ready.records,
        &mut slots.words,
        slots.used,
        forward,
        index.lent(),
        &mut out,
    );
    assert_eq!(answer, ACCEPTED, "both tables have room");
    let state = State {
        used: out[0] as usize,
        position: 0,
    };
    let steps = ends.len() as u64;
    let mut out = [0; RUN_WORDS];
    let lent = RunLent {
        index: index.lent(),
        ends,
        text,
        out: &mut out,
    };
    let answer = rewind_run(names, &ready.records, state, forward, lent);
    assert_eq!(
        (answer, out[0], out[1]),
        (ACCEPTED, steps, 0),
        "table and text have room"
    );
}

/// Begins the rewind.
fn start(names: Sources, records: &[usize], slots: &mut Slots, forward: &mut Slots) {
    let mut out = [0; START_WORDS];
    let answer = rewind_start(
        names,
        records,
        &mut slots.words,
        slots.used,
        &mut forward.words,
        &mut out,
    );
    assert_eq!(answer, ACCEPTED, "both tables have room");
    slots.used = out[0] as usize;
    forward.used = slots.used;
}

/// The path of the one record that is lent; gives the length of its text.
fn step(names: Sources, record: &[usize], forward: &mut Slots, text: &mut [u8]) -> usize {
    let mut out = [0; PATH_STEP_WORDS];
    let state = State {
        used: forward.used,
        position: 0,
    };
    let answer = rewind_next(names, record, state, &mut forward.words, &mut [], text, &mut out);
    assert_eq!(answer, ACCEPTED, "table and text have room");
    forward.used = out[1] as usize;
    out[7] as usize
}

/// The records of the journal, as the scan lists them.
fn listed(history: &History) -> Vec<usize> {
    let mut list = vec![0; 2 * history.records];
    let mut out = [0];
    let answer = usn_parse_journal(&history.journal, &mut list, &mut out);
    assert_eq!(answer, ACCEPTED, "the list has room");
    assert_eq!(out[0] as usize, history.records, "every record is listed");
    list
}

/// The entries of the image, as the carver lists them.
fn carved(history: &History) -> Vec<u64> {
    let mut list = vec![0; ENTRY_WORDS * (history.image.len() / ENTRY)];
    let mut out = [0; MFT_CARVING_FIELDS.len()];
    let answer = mft_carve_entries(&history.image, &mut list, &mut out);
    assert_eq!(answer, ACCEPTED, "the list has room");
    assert_eq!(out[2] as usize, history.entries, "every entry is carved");
    list
}

/// What a seeded table knows: its used slots, and the paths of all entries by a table of the Rust's with the same keys.
fn seeded(slots: &Slots, image: &[u8], entries: &[u64]) -> Sum {
    let used = slots.words.chunks_exact(SLOT_WORDS).take(slots.used);
    let engine = RewindEngine::from_mft(used.map(|slot| {
        let [offset, length] = [slot[5], slot[6]].map(|word| word as usize);
        let units = image[offset..offset + length].chunks_exact(2);
        let units: Vec<u16> = units.map(|unit| u16::from_le_bytes([unit[0], unit[1]])).collect();
        let name = String::from_utf16_lossy(&units);
        (slot[0], slot[1] as u16, name, slot[2], slot[3] as u16)
    }));
    let keys = entries.chunks_exact(ENTRY_WORDS);
    let keys = keys.map(|entry| EntryKey::new(entry[1], entry[2] as u16));
    paths(&engine, slots.used, keys)
}
