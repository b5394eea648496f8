//! The scope's walk over an image: the entries that are carved, and the counters. It is written from the document,
//! apart from the original and from our library, so that a mistake in one is not repeated here. The Rust tells no
//! places; the names' places are those of this walk, in the image as it is stored.

use super::layout::{
    ARRAY_COUNT, ARRAY_OFFSET, CONTENT_OFFSET, CONTENT_SIZE, DIRECTORY, END, ENTRY, FILE_NAME, FIRST_ATTRIBUTE, FLAGS,
    IN_USE, LENGTH, NAME, NAMESPACE, NON_RESIDENT, NUMBER, SECTOR, SEQUENCE, SIGNATURE, UNITS,
};
use crate::library::{ENTRY_NAME, ENTRY_WORDS, MFT_CARVING_FIELDS};
use crate::records::layout::number;

/// The most attributes that are walked.
const MOST_ATTRIBUTES: usize = 20;

/// The words of a carved entry, and those of the answer.
pub type Entry = [u64; ENTRY_WORDS];
pub type Counters = [u64; MFT_CARVING_FIELDS.len()];

/// A name that an attribute gives, its place counted from the entry.
struct Name {
    offset: usize,
    length: usize,
    parent: u64,
    namespace: u64,
}

/// The entries that `carve_mft_entries` gives, and its counters: the bytes, the candidates, those carved and those
/// rejected.
pub fn carve(image: &[u8]) -> (Vec<Entry>, Counters) {
    let mut entries = Vec::new();
    let (mut candidates, mut rejected) = (0, 0);
    for (index, entry) in image.chunks_exact(ENTRY).enumerate() {
        if entry[..4] != SIGNATURE {
            continue;
        }
        candidates += 1;
        match carved(entry, index * ENTRY) {
            Some(words) => entries.push(words),
            None => rejected += 1,
        }
    }
    let carved = entries.len() as u64;
    (entries, [image.len() as u64, candidates, carved, rejected])
}

/// The words of the candidate at `base` of its image, unless it is rejected.
fn carved(entry: &[u8], base: usize) -> Option<Entry> {
    let sequence = read(entry, SEQUENCE, 2);
    let first = read(entry, FIRST_ATTRIBUTE, 2) as usize;
    if sequence == 0 || !(48..=1015).contains(&first) {
        return None;
    }
    let entry = &restored(entry)?[..];
    let names = attributes(entry, first)
        .into_iter()
        .filter_map(|(at, length)| name(entry, at, length));
    let kept = names.reduce(|kept, new| {
        let replaced = !matches!(kept.namespace, 1 | 3) && new.namespace != 2;
        if replaced {
            new
        } else {
            kept
        }
    })?;
    let flags = read(entry, FLAGS, 2);
    Some([
        base as u64,
        read(entry, NUMBER, 4),
        sequence,
        (base + kept.offset) as u64,
        kept.length as u64,
        kept.parent % (1 << 48),
        kept.parent / (1 << 48),
        u64::from(flags & DIRECTORY != 0),
        u64::from(flags & IN_USE != 0),
    ])
}

/// The entry with the true ends of its sectors, which stand in the update sequence array behind the check value; none where
/// the array fails a test.
fn restored(entry: &[u8]) -> Option<Vec<u8>> {
    let offset = read(entry, ARRAY_OFFSET, 2) as usize;
    let count = read(entry, ARRAY_COUNT, 2) as usize;
    let first = read(entry, FIRST_ATTRIBUTE, 2) as usize;
    let sectors = entry.len() / SECTOR;
    let end = offset + 2 * count;
    if count != sectors + 1 || offset % 2 == 1 || offset < 48 || end > first || end > SECTOR - 2 {
        return None;
    }
    let check = read(entry, offset, 2);
    let mut restored = entry.to_vec();
    for sector in 1..=sectors {
        let (at, saved) = (SECTOR * sector - 2, offset + 2 * sector);
        if read(entry, at, 2) != check {
            return None;
        }
        restored[at..at + 2].copy_from_slice(&entry[saved..saved + 2]);
    }
    Some(restored)
}

/// The bytes of a carved entry's name, which are those of the restored entry.
pub fn name_bytes(image: &[u8], words: &Entry) -> Vec<u8> {
    let [base, offset, length] = [words[0], words[ENTRY_NAME], words[ENTRY_NAME + 1]].map(|word| word as usize);
    let entry = restored(&image[base..base + ENTRY]).expect("a carved entry has a sound array");
    entry[offset - base..offset - base + length].to_vec()
}

/// The attributes that are walked, by offset and length.
fn attributes(entry: &[u8], first: usize) -> Vec<(usize, usize)> {
    let mut walked = Vec::new();
    let mut at = first;
    while walked.len() < MOST_ATTRIBUTES && at + 8 <= ENTRY && read(entry, at, 4) != END {
        let length = read(entry, at + LENGTH, 4) as usize;
        if length < 8 || at + length > ENTRY {
            break;
        }
        walked.push((at, length));
        at += length;
    }
    walked
}

/// The name that the attribute at this offset gives, if it gives one.
fn name(entry: &[u8], at: usize, length: usize) -> Option<Name> {
    let resident = entry.get(at + NON_RESIDENT) == Some(&0);
    if read(entry, at, 4) != FILE_NAME || !resident || read(entry, at + CONTENT_SIZE, 4) < NAME as u64 {
        return None;
    }
    let content = at + read(entry, at + CONTENT_OFFSET, 2) as usize;
    let units = read(entry, content + UNITS, 1) as usize;
    let end = content + NAME + 2 * units;
    let inside = end <= ENTRY && end <= at + length;
    (units > 0 && inside).then(|| Name {
        offset: content + NAME,
        length: 2 * units,
        parent: read(entry, content, 8),
        namespace: read(entry, content + NAMESPACE, 1),
    })
}

/// The number at an offset; 0 where it runs past the entry.
fn read(entry: &[u8], offset: usize, width: usize) -> u64 {
    if offset + width <= entry.len() {
        number(entry, offset, width)
    } else {
        0
    }
}
