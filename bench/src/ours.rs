//! Our calls, timed.

use crate::cost::{clock, Cost};
use crate::image::Kind;
use crate::layout::ENTRY;
use crate::library::{
    self, ACCEPTED, ANSWER_WORDS, BUF_SIZE, END, ENTRY_NAME, ENTRY_WORDS, MFT_CARVING_FIELDS, READER_WORDS, RECORD,
    WANTS, WORDS,
};
use crate::names::{Names, LONGEST_TEXT};
use crate::paths::library::{path_decode, Sources};
use crate::sum::Sum;
use crate::texts::Texts;
use std::hint::black_box;

/// A reader that lists the places of records.
#[derive(Clone, Copy)]
pub struct Lister {
    call: fn(&[u8], &mut [usize], &mut [u64]) -> u32,
    /// The word of its answer that is the number of records.
    count: usize,
}

pub const SCAN: Lister = Lister {
    call: library::usn_parse_journal,
    count: 0,
};

pub const CARVER: Lister = Lister {
    call: library::usn_carve_records,
    count: 2,
};

/// How much is lent: a list for any journal of this length, and the words of so many records.
#[derive(Clone, Copy)]
pub struct Room {
    pub journal: usize,
    pub records: usize,
}

/// What is lent to a reader: the list, and the words of each record.
pub struct Memory {
    list: Vec<usize>,
    fields: Vec<u64>,
}

impl Room {
    /// The same with a list that the records just fill.
    pub fn just_full(self) -> Self {
        Self {
            journal: 64 * self.records,
            ..self
        }
    }

    /// The same without the words of the records, for the list alone.
    pub fn list_only(self) -> Self {
        Self { records: 0, ..self }
    }

    /// Memory that the system has not given pages to.
    pub fn fresh(self) -> Memory {
        Memory {
            list: vec![0; 2 * self.journal.div_ceil(64)],
            fields: vec![0; WORDS * self.records],
        }
    }

    /// Memory that has been written.
    pub fn cleared(self) -> Memory {
        let mut memory = black_box(self.fresh());
        memory.list.fill(0);
        memory.fields.fill(0);
        memory
    }
}

impl Lister {
    /// The list alone is timed.
    pub fn list(self, journal: &[u8], mut memory: Memory) -> (Cost, Sum) {
        let (cost, records) = clock(|| self.listed(journal, &mut memory));
        memory.fields.resize(WORDS * records, 0);
        fields(journal, &mut memory, records);
        (cost, memory.sum(records))
    }

    /// The list and the words of each listed record are timed.
    pub fn list_and_fields(self, journal: &[u8], mut memory: Memory) -> (Cost, Sum) {
        let (cost, records) = clock(|| {
            let records = self.listed(journal, &mut memory);
            fields(journal, &mut memory, records);
            records
        });
        (cost, memory.sum(records))
    }

    /// Lists the places of the records; gives how many there are.
    fn listed(self, journal: &[u8], memory: &mut Memory) -> usize {
        let mut out = [0; 5];
        let answer = (self.call)(journal, &mut memory.list, &mut out);
        assert_eq!(answer, ACCEPTED, "the list has room");
        out[self.count] as usize
    }
}

/// Writes the words of each listed record.
fn fields(journal: &[u8], memory: &mut Memory, records: usize) {
    let places = memory.list.chunks_exact(2).take(records);
    for (place, words) in places.zip(memory.fields.chunks_exact_mut(WORDS)) {
        let answer = library::usn_listed_record(journal, place[0], words);
        assert_eq!(answer, ACCEPTED, "a listed record is there");
    }
}

impl Memory {
    fn sum(&self, records: usize) -> Sum {
        let mut sum = Sum::default();
        for words in self.fields.chunks_exact(WORDS).take(records) {
            add(&mut sum, words);
        }
        sum
    }
}

/// Adds a record by its words.
fn add(sum: &mut Sum, words: &[u64]) {
    sum.add([words[0], words[4], words[5], words[7]]);
}

/// The window over the journal, given at most so many bytes at a time.
pub fn window(journal: &[u8], delivery: usize) -> (Cost, Sum) {
    let mut buffer = black_box(vec![0; BUF_SIZE]);
    buffer.fill(0);
    clock(|| {
        let mut sum = Sum::default();
        let mut reader = [0; READER_WORDS];
        let mut out = [0; ANSWER_WORDS];
        let mut answer = library::usn_reader_new(journal.len() as u64, &mut reader);
        while answer == ACCEPTED {
            answer = library::usn_reader_next(&mut reader, &buffer, &mut out);
            match out[0] {
                RECORD => add(&mut sum, &out[3..]),
                END => return sum,
                _ => give(journal, delivery, &mut reader, &mut buffer, &mut out),
            }
        }
        panic!("the window is refused by {answer}");
    })
}

/// Gives what is wanted, at most so many bytes at a time.
fn give(journal: &[u8], delivery: usize, reader: &mut [u64], buffer: &mut [u8], out: &mut [u64]) {
    while out[0] == WANTS && out[2] > 0 {
        let (from, wanted) = (out[1] as usize, out[2] as usize);
        let bytes = &journal[from..from + wanted.min(delivery)];
        let answer = library::usn_reader_give(reader, buffer, bytes, out);
        assert_eq!(answer, ACCEPTED, "no more is given than is wanted");
    }
}

/// How much is lent to the carver of entries: a list for any image of this length, and the texts of so many names of an image of
/// this kind.
#[derive(Clone, Copy)]
pub struct ImageRoom {
    pub kind: Kind,
    pub image: usize,
    pub entries: usize,
}

/// What is lent to the carver of entries, and to the decoder for the names.
pub struct ImageMemory {
    kind: Kind,
    list: Vec<u64>,
    texts: Texts,
}

impl ImageRoom {
    /// The same with a list that the entries just fill.
    pub fn just_full(self) -> Self {
        Self {
            image: ENTRY * self.entries,
            ..self
        }
    }

    /// The same without the texts, for the list alone.
    pub fn list_only(self) -> Self {
        Self { entries: 0, ..self }
    }

    /// Memory that the system has not given pages to.
    pub fn fresh(self) -> ImageMemory {
        ImageMemory {
            kind: self.kind,
            list: vec![0; ENTRY_WORDS * (self.image / ENTRY)],
            texts: name_texts(self.entries, self.kind.longest_text()),
        }
    }

    /// Memory that has been written.
    pub fn cleared(self) -> ImageMemory {
        let mut memory = black_box(self.fresh());
        memory.list.fill(0);
        memory.texts.clear();
        memory
    }
}

/// The list alone is timed.
pub fn image_list(image: &[u8], mut memory: ImageMemory) -> (Cost, Sum) {
    let (cost, entries) = clock(|| carved(image, &mut memory));
    memory.texts = name_texts(entries, memory.kind.longest_text());
    entry_texts(image, &mut memory, entries);
    (cost, memory.sum(entries))
}

/// The list and the text of each name are timed.
pub fn image_list_and_text(image: &[u8], mut memory: ImageMemory) -> (Cost, Sum) {
    let (cost, entries) = clock(|| {
        let entries = carved(image, &mut memory);
        entry_texts(image, &mut memory, entries);
        entries
    });
    (cost, memory.sum(entries))
}

/// Lists the entries of an image; gives how many there are.
fn carved(image: &[u8], memory: &mut ImageMemory) -> usize {
    let mut out = [0; MFT_CARVING_FIELDS.len()];
    let answer = library::mft_carve_entries(image, &mut memory.list, &mut out);
    assert_eq!(answer, ACCEPTED, "the list has room");
    out[2] as usize
}

/// Writes the text of each listed entry's name. No name lies over a sector's end but the long ones, which are restored.
fn entry_texts(image: &[u8], memory: &mut ImageMemory, entries: usize) {
    let listed = memory.list.chunks_exact(ENTRY_WORDS).take(entries);
    let places = listed.map(|words| [words[ENTRY_NAME], words[ENTRY_NAME + 1]]);
    if memory.kind == Kind::LongNames {
        memory.texts.write(places, |place, text| restored(image, place, text));
    } else {
        let names = places.map(|place| {
            let [offset, length] = place.map(|word| word as usize);
            &image[offset..offset + length]
        });
        memory.texts.write(names, decoded);
    }
}

/// Writes the text of the name at a place of the image, with the true ends of its entry's sectors; gives its length.
fn restored(image: &[u8], [offset, length]: [u64; 2], text: &mut [u8]) -> usize {
    let mut out = [0];
    let names = Sources { journal: &[], image };
    let answer = path_decode(names, [1, offset, length], text, &mut out);
    assert_eq!(answer, ACCEPTED, "the text has room");
    out[0] as usize
}

impl ImageMemory {
    fn sum(&self, entries: usize) -> Sum {
        let mut sum = Sum::default();
        let listed = self.list.chunks_exact(ENTRY_WORDS).take(entries);
        for (words, text) in listed.zip(self.texts.iter()) {
            sum.add_entry([words[1], words[2], words[5]], text);
        }
        sum
    }
}

/// Room for so many texts of at most so many bytes, in memory that the system has not given pages to.
fn name_texts(names: usize, longest: usize) -> Texts {
    Texts::fresh(names, longest * names)
}

/// Writes the text of a name; gives its length.
fn decoded(name: &[u8], text: &mut [u8]) -> usize {
    let mut out = [0];
    let answer = library::utf16_decode(name, text, &mut out);
    assert_eq!(answer, ACCEPTED, "the text has room");
    out[0] as usize
}

/// The texts of all names are kept.
pub fn names(names: &Names) -> (Cost, Sum) {
    let mut texts = black_box(name_texts(names.ends.len(), LONGEST_TEXT));
    texts.clear();
    let (cost, ()) = clock(|| texts.write(names.iter(), decoded));
    let mut sum = Sum::default();
    texts.iter().for_each(|text| sum.add_text(text));
    (cost, sum)
}

/// Each text takes the place of the one before it.
pub fn names_one_by_one(names: &Names) -> (Cost, Sum) {
    let mut text = [0; LONGEST_TEXT];
    clock(|| {
        let mut sum = Sum::default();
        for name in names.iter() {
            let length = decoded(name, &mut text);
            sum.add_text(&text[..length]);
        }
        sum
    })
}
