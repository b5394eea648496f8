//! A lookup table that grows, over the library's tables in lent memory.
//!
//! The library knows a name as a place in the journal or in the image. Here all names are kept as UTF-16 in one slice of our own,
//! which is lent as the journal: its bytes are decoded as they are, whatever they look like. Every used slot has the journal's
//! source.

use crate::calls::{self, Index, Texts, ENTRY_WORDS, SLOT_NAME_LENGTH, SLOT_NAME_OFFSET, SLOT_NAME_SOURCE, SLOT_WORDS};
use crate::carve::CarvedMftEntry;
use crate::error::{index as number, ruled_out, MAX_SLICE, TABLE_FULL, TEXT_FULL};
use crate::rewind::EntryKey;
use crate::text::{self, encoded, with_text};
use crate::usn::{UsnReason, UsnRecord};

/// The fixed part of a version 2 record, and its greatest length.
const FIXED_PART: usize = 60;
const LONGEST_RECORD: usize = 65536;

/// The bytes of text that a rewind lends at first, and how many more for each record.
const FIRST_TEXT: usize = 4096;
const USUAL_PATH: usize = 64;

/// The source of every name that is kept.
const JOURNAL_SOURCE: u64 = 0;

/// An entry number of a version 2 record is below this.
const ENTRIES: u64 = 1 << 48;

/// Slots of a table: their words, and how many slots are used.
#[derive(Debug, Clone, Default)]
struct Slots {
    words: Vec<u64>,
    used: usize,
}

impl Slots {
    /// Has room for so many slots more than are used.
    fn make_room(&mut self, more: usize) {
        let needed = (self.used + more) * SLOT_WORDS;
        if self.words.len() < needed {
            self.words.resize(needed, 0);
        }
    }

    /// Makes a call that adds to the table and answers the used slots, with twice the slots while they are too few.
    fn add(&mut self, name: &str, mut call: impl FnMut(&mut [u64], usize, &mut [u64; 1]) -> u32) {
        let mut out = [0];
        loop {
            match call(&mut self.words, self.used, &mut out) {
                0 => break,
                TABLE_FULL => self.make_room(self.used + 16),
                refusal => ruled_out(name, refusal),
            }
        }
        self.used = number(out[0]);
    }

    /// An entry under its key; a known one is replaced or left alone.
    fn put(&mut self, names: &[u8], slot: &[u64; SLOT_WORDS], replace: bool) {
        if replace {
            self.add("table_insert", |words, used, out| {
                calls::table_insert(names, words, used, slot, out)
            });
        } else {
            self.add("table_insert_if_absent", |words, used, out| {
                calls::table_insert_if_absent(names, words, used, slot, out)
            });
        }
    }

    /// The path of a key.
    fn path(&self, names: &[u8], key: EntryKey) -> String {
        let (text, length) = with_text(1024, "path_resolve", |text| {
            let mut out = [0; 5];
            (
                calls::path_resolve(names, &self.words, self.used, words_of(key), text, &mut out),
                out[4],
            )
        });
        text::string(&text[..length])
    }
}

/// A record's path, and that of its parent.
pub struct Paths {
    pub full_path: String,
    pub parent_path: String,
}

/// The table of a rewind engine.
#[derive(Debug, Clone, Default)]
pub struct Table {
    names: Vec<u8>,
    slots: Slots,
}

impl Table {
    /// How many keys it knows.
    pub fn len(&self) -> usize {
        self.slots.used
    }

    /// An entry under its key, in place of a known one.
    pub fn insert(&mut self, key: EntryKey, name: &str, parent: EntryKey) {
        let name = encoded(name);
        self.make_room_for_names(name.len());
        let slot = self.slot(key, parent, &name);
        self.slots.put(&self.names, &slot, true);
    }

    /// The carved entries, in order, each where its key is new.
    pub fn seed(&mut self, entries: &[CarvedMftEntry]) {
        let names: Vec<Vec<u8>> = entries.iter().map(|entry| encoded(&entry.filename)).collect();
        let mut rows = self.rows(&names);
        for (row, entry) in rows.chunks_exact_mut(ENTRY_WORDS).zip(entries) {
            row[0] = entry.offset as u64;
            row[7] = u64::from(entry.is_directory);
            row[8] = u64::from(entry.is_in_use);
            let parent = EntryKey::new(entry.parent_entry, entry.parent_sequence);
            set_keys(row, EntryKey::new(entry.entry_number, entry.sequence_number), parent);
        }
        self.seed_rows(&rows);
    }

    /// Entries, of which the last counts where keys are equal: each under its key, with its name and its parent.
    pub fn fill(&mut self, entries: &[(EntryKey, String, EntryKey)]) {
        let last_first = || entries.iter().rev();
        let names: Vec<Vec<u8>> = last_first().map(|(_, name, _)| encoded(name)).collect();
        let mut rows = self.rows(&names);
        for (row, (key, _, parent)) in rows.chunks_exact_mut(ENTRY_WORDS).zip(last_first()) {
            set_keys(row, *key, *parent);
        }
        self.seed_rows(&rows);
    }

    /// A row of words for each name, which is kept: its place, and 0 for all else.
    fn rows(&mut self, names: &[Vec<u8>]) -> Vec<u64> {
        self.make_room_for_names(names.iter().map(Vec::len).sum());
        let rows = names.iter().flat_map(|name| {
            let [offset, length] = self.keep(name);
            [0, 0, 0, offset, length, 0, 0, 0, 0]
        });
        rows.collect()
    }

    /// The rows of carved entries, in order, each where its key is new.
    fn seed_rows(&mut self, rows: &[u64]) {
        self.slots.make_room(rows.len() / ENTRY_WORDS);
        let mut index = Index::for_slots(self.slots.words.len() / SLOT_WORDS);
        let names = &self.names;
        let known = self.slots.used;
        self.slots.add("table_seed_indexed", |words, used, out| {
            calls::table_seed_indexed(names, words, used, rows, &mut index, out)
        });
        let slots = self.slots.words.chunks_exact_mut(SLOT_WORDS);
        for slot in slots.take(self.slots.used).skip(known) {
            slot[SLOT_NAME_SOURCE] = JOURNAL_SOURCE;
        }
    }

    /// The path of a key.
    pub fn path(&self, key: EntryKey) -> String {
        self.slots.path(&self.names, key)
    }

    /// The rewind of these records.
    pub fn rewind(&mut self, records: &[UsnRecord]) -> Vec<Paths> {
        let names: Vec<Vec<u8>> = records.iter().map(|record| encoded(&record.filename)).collect();
        let paths = if records
            .iter()
            .zip(&names)
            .all(|(record, name)| is_writable(record, name))
        {
            self.rewind_written(records, &names)
        } else {
            self.rewind_by_entries(records, &names)
        };
        self.compact();
        paths
    }

    /// The rewind of records that are written back as version 2 records, behind the names.
    fn rewind_written(&mut self, records: &[UsnRecord], names: &[Vec<u8>]) -> Vec<Paths> {
        self.make_room_for_names(names.iter().map(|name| FIXED_PART + name.len()).sum());
        let mut list = Vec::with_capacity(2 * records.len());
        for (record, name) in records.iter().zip(names) {
            list.extend([self.names.len(), FIXED_PART + name.len()]);
            write_record(&mut self.names, record, name);
        }

        self.slots.make_room(records.len());
        let mut index = Index::for_slots(self.slots.words.len() / SLOT_WORDS);
        let mut forward = vec![0; self.slots.words.len()];
        let mut out = [0; 2];
        let words = &mut self.slots.words;
        match calls::rewind_start_indexed(
            &self.names,
            &list,
            words,
            self.slots.used,
            &mut forward,
            &mut index,
            &mut out,
        ) {
            0 => {}
            refusal => ruled_out("rewind_start_indexed", refusal),
        }
        self.slots.used = number(out[0]);
        let texts = run(&self.names, &list, out.map(number), &mut forward, &mut index);
        texts
            .into_iter()
            .zip(records)
            .map(|(full_path, record)| {
                let parent_path = full_path[..full_path.len() - record.filename.len() - 1].to_owned();
                Paths { full_path, parent_path }
            })
            .collect()
    }

    /// The rewind of any records, by one entry after another.
    fn rewind_by_entries(&mut self, records: &[UsnRecord], names: &[Vec<u8>]) -> Vec<Paths> {
        self.make_room_for_names(names.iter().map(Vec::len).sum());
        let additions: Vec<_> = records
            .iter()
            .zip(names)
            .map(|(record, name)| self.slot(file_of(record), parent_of(record), name))
            .collect();

        for (record, slot) in records.iter().zip(&additions).rev() {
            let replace = record.reason.contains(UsnReason::RENAME_OLD_NAME);
            self.slots.put(&self.names, slot, replace);
        }

        let mut forward = self.slots.clone();
        let renamed_or_created = UsnReason::RENAME_NEW_NAME | UsnReason::FILE_CREATE;
        let steps = records.iter().zip(&additions);
        steps
            .map(|(record, slot)| {
                forward.put(&self.names, slot, record.reason.intersects(renamed_or_created));
                let parent_path = forward.path(&self.names, parent_of(record));
                let full_path = format!("{parent_path}\\{}", record.filename);
                Paths { full_path, parent_path }
            })
            .collect()
    }

    /// The words of a slot, whose name is kept.
    fn slot(&mut self, key: EntryKey, parent: EntryKey, name: &[u8]) -> [u64; SLOT_WORDS] {
        let [entry, sequence] = words_of(key);
        let [parent_entry, parent_sequence] = words_of(parent);
        let [offset, length] = self.keep(name);
        [
            entry,
            sequence,
            parent_entry,
            parent_sequence,
            JOURNAL_SOURCE,
            offset,
            length,
        ]
    }

    /// Puts a name behind the others, and tells its place.
    fn keep(&mut self, name: &[u8]) -> [u64; 2] {
        let offset = self.names.len();
        self.names.extend_from_slice(name);
        [offset as u64, name.len() as u64]
    }

    /// Makes sure that so many bytes can be put behind the names. Names that no slot has any more make way for them.
    fn make_room_for_names(&mut self, more: usize) {
        if self.names.len() + more > MAX_SLICE {
            self.compact();
        }
        let needed = self.names.len() + more;
        assert!(
            needed <= MAX_SLICE,
            "the names and records of a table take {needed} bytes, above {MAX_SLICE}"
        );
    }

    /// Keeps the names of the used slots alone.
    fn compact(&mut self) {
        let mut names = Vec::new();
        for slot in self.slots.words.chunks_exact_mut(SLOT_WORDS).take(self.slots.used) {
            let offset = number(slot[SLOT_NAME_OFFSET]);
            slot[SLOT_NAME_OFFSET] = names.len() as u64;
            names.extend_from_slice(&self.names[offset..offset + number(slot[SLOT_NAME_LENGTH])]);
        }
        self.names = names;
    }
}

/// The paths of all listed records, from the start of a rewind on. Every run tests what it is lent and builds the index anew, so
/// that there are few: its text has room for paths of a usual length, and is twice as long after a run that it stopped.
fn run(names: &[u8], list: &[usize], mut state: [usize; 2], forward: &mut [u64], index: &mut Index) -> Vec<String> {
    let records = list.len() / 2;
    let mut texts = Vec::with_capacity(records);
    let mut text = vec![0; FIRST_TEXT + USUAL_PATH * records];
    let mut ends = vec![0; records];
    while texts.len() < records {
        let asked = &mut ends[texts.len()..];
        let mut out = [0; 4];
        let lent = Texts {
            ends: asked,
            text: &mut text,
        };
        match calls::rewind_run(names, list, state, forward, index, lent, &mut out) {
            0 => {}
            refusal => ruled_out("rewind_run", refusal),
        }
        let [steps, stopped, used, position] = out;
        let mut from = 0;
        for &end in &asked[..number(steps)] {
            texts.push(text::string(&text[from..number(end)]));
            from = number(end);
        }
        state = [used, position].map(number);
        match stopped {
            0 => {}
            stopped if stopped == u64::from(TEXT_FULL) => text.resize(2 * text.len(), 0),
            stopped => ruled_out("rewind_run", stopped as u32),
        }
    }
    texts
}

/// The keys of a carved entry's row.
fn set_keys(row: &mut [u64], key: EntryKey, parent: EntryKey) {
    row[1..3].copy_from_slice(&words_of(key));
    row[5..7].copy_from_slice(&words_of(parent));
}

/// A key as the words of a slot.
fn words_of(key: EntryKey) -> [u64; 2] {
    [key.entry, u64::from(key.sequence)]
}

/// The key of a record's file.
fn file_of(record: &UsnRecord) -> EntryKey {
    EntryKey::new(record.mft_entry, record.mft_sequence)
}

/// The key of a record's parent.
fn parent_of(record: &UsnRecord) -> EntryKey {
    EntryKey::new(record.parent_mft_entry, record.parent_mft_sequence)
}

/// Whether a version 2 record can hold what a rewind uses of a record.
fn is_writable(record: &UsnRecord, name: &[u8]) -> bool {
    record.mft_entry < ENTRIES && record.parent_mft_entry < ENTRIES && FIXED_PART + name.len() <= LONGEST_RECORD
}

/// A file reference of version 2.
fn reference(key: EntryKey) -> [u8; 8] {
    (u64::from(key.sequence) << 48 | key.entry).to_le_bytes()
}

/// Puts a version 2 record behind the bytes, with what a rewind uses: both references, the reason and the name. All other fields
/// are 0.
fn write_record(bytes: &mut Vec<u8>, record: &UsnRecord, name: &[u8]) {
    let mut fixed = [0; FIXED_PART];
    fixed[0x00..0x04].copy_from_slice(&((FIXED_PART + name.len()) as u32).to_le_bytes());
    fixed[0x04..0x06].copy_from_slice(&2u16.to_le_bytes());
    fixed[0x08..0x10].copy_from_slice(&reference(file_of(record)));
    fixed[0x10..0x18].copy_from_slice(&reference(parent_of(record)));
    fixed[0x28..0x2c].copy_from_slice(&record.reason.bits().to_le_bytes());
    fixed[0x38..0x3a].copy_from_slice(&(name.len() as u16).to_le_bytes());
    fixed[0x3a..0x3c].copy_from_slice(&(FIXED_PART as u16).to_le_bytes());
    bytes.extend_from_slice(&fixed);
    bytes.extend_from_slice(name);
}

#[cfg(test)]
mod tests {
    use super::*;
    use crate::usn::{FileAttributes, Timestamp};

    /// A record of a file in a folder.
    fn record(file: u64, parent: u64, reason: u32, name: &str) -> UsnRecord {
        UsnRecord {
            mft_entry: file,
            mft_sequence: 1,
            parent_mft_entry: parent,
            parent_mft_sequence: 1,
            usn: 0,
            timestamp: Timestamp::default(),
            reason: UsnReason::from_bits_retain(reason),
            filename: name.to_owned(),
            file_attributes: FileAttributes::empty(),
            source_info: 0,
            security_id: 0,
            major_version: 2,
        }
    }

    /// What both ways to rewind give for some records: their paths, and then those of the table that they leave.
    fn both_ways(records: &[UsnRecord]) -> [Vec<String>; 2] {
        let names: Vec<_> = records.iter().map(|record| encoded(&record.filename)).collect();
        [Table::rewind_written, Table::rewind_by_entries].map(|way| {
            let mut table = Table::default();
            table.insert(EntryKey::new(40, 1), "known", EntryKey::root());
            let rewound = way(&mut table, records, &names);
            table.compact();
            let paths = rewound
                .into_iter()
                .flat_map(|paths| [paths.full_path, paths.parent_path]);
            paths
                .chain((0..50).map(|entry| table.path(EntryKey::new(entry, 1))))
                .collect()
        })
    }

    #[test]
    fn both_ways_to_rewind_agree() {
        let reasons = [0x100, 0x1000, 0x2000, 0x200, 0x1100, 0x3000, 0x8000_0002];
        for first in reasons {
            for second in reasons {
                let records = [
                    record(41, 40, 0x100, "folder"),
                    record(42, 41, first, "a"),
                    record(41, 40, 0x1000, "folder"),
                    record(41, 5, 0x2000, "moved \u{1F4C4}"),
                    record(42, 41, second, "b"),
                    record(43, 43, first, "self"),
                    record(44, 99, second, ""),
                    record(40, 5, first, "renamed"),
                    record(42, 41, 0x200, "c"),
                ];
                let [written, by_entries] = both_ways(&records);
                assert_eq!(written, by_entries, "reasons {first:x} and {second:x}");
            }
        }
    }

    #[test]
    fn names_that_nobody_has_any_more_are_dropped() {
        let mut table = Table::default();
        for _ in 0..10 {
            table.insert(EntryKey::new(6, 1), "name", EntryKey::root());
            table.insert(EntryKey::new(7, 1), "", EntryKey::new(6, 1));
        }
        assert_eq!(table.names.len(), 80);
        table.compact();
        assert_eq!(table.names, encoded("name"));
        assert_eq!(table.path(EntryKey::new(7, 1)), r".\name\");
    }

    #[test]
    fn what_a_version_2_record_can_hold() {
        let fits = |file, parent, units: usize| {
            let name = "a".repeat(units);
            is_writable(&record(file, parent, 0, &name), &encoded(&name))
        };
        assert!(fits(ENTRIES - 1, ENTRIES - 1, 32738));
        assert!(!fits(ENTRIES, 5, 1));
        assert!(!fits(42, ENTRIES, 1));
        assert!(!fits(42, 5, 32739));
    }
}
