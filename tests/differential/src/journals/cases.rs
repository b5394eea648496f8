//! The random journals: records whole, damaged, overlapping and of other versions, zero words and rubbish in any order.

use super::edges::{header, laid};
use super::walks::{FIRST_TIME, LAST_TIME};
use crate::random::Random;
use crate::records::cases::{damage, record};
use crate::records::layout::{put, Fields, Layout, LARGEST, LAYOUTS, MAJOR_VERSION};

/// The most pieces of a random journal.
const PIECES: usize = 24;

/// The most units of a sound record's name.
const LONGEST_NAME: usize = 30;

/// The lengths at which a reader decides.
const LENGTHS: [usize; 14] = [
    0,
    8,
    48,
    55,
    56,
    59,
    60,
    61,
    75,
    76,
    77,
    LARGEST - 1,
    LARGEST,
    LARGEST + 1,
];

/// Fills `bytes` with a journal; gives its kind.
pub fn fill(random: &mut Random, bytes: &mut Vec<u8>) -> &'static str {
    bytes.clear();
    let pieces = random.between(1, PIECES);
    match random.below(1000) {
        0..=249 => {
            for _ in 0..pieces {
                sound(random, bytes);
                gap(random, bytes);
            }
            "sound journal"
        }
        250..=799 => {
            fill_pieces(random, bytes, pieces);
            "journal"
        }
        800..=949 => {
            fill_pieces(random, bytes, pieces);
            let end = random.below(bytes.len() + 1);
            bytes.truncate(end);
            "cut journal"
        }
        950..=994 => {
            let length = random.below(400);
            random.append(bytes, length);
            "rubbish"
        }
        _ => {
            fill_pieces(random, bytes, pieces);
            large(random, bytes);
            match random.below(4) {
                0 => bytes.truncate(bytes.len() - random.below(10)),
                _ => fill_pieces(random, bytes, pieces),
            }
            "journal with a large record"
        }
    }
}

fn fill_pieces(random: &mut Random, bytes: &mut Vec<u8>, pieces: usize) {
    for _ in 0..pieces {
        piece(random, bytes);
    }
}

/// Appends a piece of a journal; mostly the next one begins at a word.
pub fn piece(random: &mut Random, bytes: &mut Vec<u8>) {
    let layout = random.pick(&LAYOUTS);
    let start = bytes.len();
    match random.below(32) {
        0..=9 => sound(random, bytes),
        10..=14 => record(random, layout, bytes),
        15..=17 => {
            record(random, layout, bytes);
            damage(random, layout, &mut bytes[start..]);
        }
        18..=19 => gap(random, bytes),
        20 => {
            let length = random.between(1, 100);
            random.append(bytes, length);
        }
        21..=22 => other_header(random, bytes),
        23..=25 => overlap(random, layout, bytes),
        26..=30 => edge_field(random, layout, bytes),
        _ => half_zero_word(random, bytes),
    }
    if !random.one_in(32) {
        bytes.resize(bytes.len().next_multiple_of(8), 0);
    }
}

/// Appends a record that every reader takes, up to the next word: a name behind the fixed part, a time that is carved.
pub fn sound(random: &mut Random, bytes: &mut Vec<u8>) {
    let layout = random.pick(&LAYOUTS);
    let start = bytes.len();
    let units = random.between(1, LONGEST_NAME);
    let mut fields = Fields::example(layout, units);
    fields.record_length = fields.record_length.next_multiple_of(8);
    fields.usn = start as u64;
    fields.file_reference = [random.number(), random.number()];
    fields.parent_reference = [random.number(), random.number()];
    fields.filetime = FIRST_TIME as u64 + random.below((LAST_TIME - FIRST_TIME) as usize) as u64;
    fields.reason = random.number() as u32;
    fields.append(layout, bytes);
    for _ in 0..units {
        bytes.extend_from_slice(&(0x20 + random.below(0x2000) as u16).to_le_bytes());
    }
    bytes.resize(start + fields.record_length as usize, 0);
}

/// Appends zero words: mostly none, else a few.
fn gap(random: &mut Random, bytes: &mut Vec<u8>) {
    let words = if random.one_in(4) { random.between(1, 40) } else { 0 };
    bytes.resize(bytes.len() + 8 * words, 0);
}

/// Appends a header of any version and of a length at which a reader decides, in front of zeros, rubbish or the next
/// piece. A length that passes the journal's end ends the scan, so that a large one is rare.
fn other_header(random: &mut Random, bytes: &mut Vec<u8>) {
    let length = match random.below(16) {
        0 => random.pick(&LENGTHS),
        1 => random.between(8, 2000),
        _ => random.pick(&LENGTHS[..11]),
    };
    let version = random.pick(&[0, 1, 2, 3, 4, 5, 2, 3, 4]);
    let start = bytes.len();
    bytes.extend_from_slice(&header(length, version));
    match random.below(3) {
        0 => bytes.resize(start + length.clamp(8, 200), 0),
        1 => random.append(bytes, length.clamp(8, 200) - 8),
        _ => {}
    }
}

/// Appends a record with another one laid over it at one of its words, each of them sound or not.
fn overlap(random: &mut Random, layout: &Layout, bytes: &mut Vec<u8>) {
    let mut parts = [Vec::new(), Vec::new()];
    for part in &mut parts {
        match random.below(3) {
            0 => record(random, layout, part),
            _ => sound(random, part),
        }
    }
    let [mut lower, upper] = parts;
    if random.one_in(2) {
        let longer = random.between(lower.len(), 300);
        put(&mut lower, 0, 4, longer as u64);
    }
    let at = 8 * random.between(1, lower.len() / 8);
    bytes.extend_from_slice(&laid(&lower, &upper, at));
}

/// Appends a record of which one field has a value at which a reader decides.
fn edge_field(random: &mut Random, layout: &Layout, bytes: &mut Vec<u8>) {
    let start = bytes.len();
    let units = random.between(1, LONGEST_NAME);
    Fields::example(layout, units).append(layout, bytes);
    random.append(bytes, 2 * units);
    let record = &mut bytes[start..];
    let length = record.len();
    let fixed = layout.fixed;
    match random.below(5) {
        0 => {
            let times = [FIRST_TIME - 1, FIRST_TIME, LAST_TIME, LAST_TIME + 1];
            put(record, layout.filetime, 8, random.pick(&times) as u64);
        }
        1 => {
            let offsets = [0, 8, fixed - 1, fixed + 1, fixed + 2, 60, 76, length - 2, length, 65535];
            put(record, layout.name_offset, 2, random.pick(&offsets) as u64);
        }
        2 => {
            let lengths = [0, 1, 2 * units - 1, 2 * units + 1, 2 * units + 2, 65535];
            put(record, layout.name_length, 2, random.pick(&lengths) as u64);
        }
        3 => put(record, MAJOR_VERSION, 2, random.pick(&[0, 1, 2, 3, 4, 5])),
        _ => {
            let lengths = [length - 1, length + 1, length + 8, length - 8];
            let other = if random.one_in(2) {
                random.pick(&lengths)
            } else {
                random.pick(&LENGTHS[..11])
            };
            put(record, 0, 4, other as u64);
        }
    }
}

/// Appends a word whose first four bytes are zero and whose others may be those of a version.
fn half_zero_word(random: &mut Random, bytes: &mut Vec<u8>) {
    let mut word = header(0, random.pick(&[0, 2, 3, 4]));
    word[6 + random.below(2)] = random.below(256) as u8;
    bytes.extend_from_slice(&word);
}

/// Appends a record of about the largest length, full of zeros, rubbish or records, up to the next word.
pub fn large(random: &mut Random, bytes: &mut Vec<u8>) {
    let start = bytes.len();
    let length = match random.below(4) {
        0 => random.between(1000, LARGEST),
        _ => random.pick(&LENGTHS[11..]),
    };
    let layout = random.pick(&LAYOUTS);
    let mut fields = Fields::example(layout, 0);
    fields.record_length = length as u32;
    fields.major_version = random.pick(&[2, 3, 4, 5, layout.major_version, layout.major_version]);
    fields.name_length = random.pick(&[0, 2, 40, length - layout.fixed, 65534]) as u16;
    fields.append(layout, bytes);
    let end = start + length;
    match random.below(4) {
        0 => random.append(bytes, length - layout.fixed),
        1 => {
            bytes.resize(bytes.len().next_multiple_of(8), 0);
            while bytes.len() + 200 < end {
                sound(random, bytes);
            }
        }
        _ => {}
    }
    bytes.resize(end.next_multiple_of(8), 0);
}
