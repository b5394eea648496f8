//! The images that are carved: MFT entries as a volume has them, with many attributes or with long names, and empty blocks and
//! damaged entries among them.

use crate::layout::{Entry, Name, CONTENT_SIZE, ENTRY, FIRST, FIRST_ATTRIBUTE, FLAGS, NON_RESIDENT, NUMBER, SEQUENCE};
use crate::names::{long_name, name, LONGEST_LONG_TEXT, LONGEST_TEXT};
use crate::random::Random;

/// One in so many blocks is empty, and of the others one in so many is damaged.
const EMPTY: usize = 8;
const DAMAGED: usize = 32;

/// The types of the attributes beside the names, and the length of each.
const STANDARD_INFORMATION: (u64, usize) = (0x10, 96);
const DATA: (u64, usize) = (0x80, 72);

/// The attributes behind the name of an entry that has many, and how many they are.
const SHORT: (u64, usize) = (0x80, 24);
const MANY: usize = 12;

/// What the entries of an image have.
#[derive(Debug, Clone, Copy, PartialEq, Eq)]
pub enum Kind {
    /// Standard information, a name for Windows and DOS or one for each, and data.
    Mixed,
    /// Standard information, a name for Windows and DOS, and many attributes behind it.
    ManyAttributes,
    /// Standard information, a name for DOS and a long one, which lies over the first sector's end, and data.
    LongNames,
}

impl Kind {
    pub const ALL: [Self; 3] = [Self::Mixed, Self::ManyAttributes, Self::LongNames];

    /// What an image of this kind is called.
    pub fn name(self) -> &'static str {
        match self {
            Self::Mixed => "image",
            Self::ManyAttributes => "image of many attributes",
            Self::LongNames => "image of long names",
        }
    }

    /// The most bytes of a name's text.
    pub fn longest_text(self) -> usize {
        match self {
            Self::Mixed | Self::ManyAttributes => LONGEST_TEXT,
            Self::LongNames => LONGEST_LONG_TEXT,
        }
    }
}

/// An image of so many bytes, a multiple of an entry's, by its seed and kind alone.
pub fn generated(seed: u64, size: usize, kind: Kind) -> Vec<u8> {
    let mut random = Random::of_case(seed, 2, 0);
    let mut bytes = Vec::with_capacity(size);
    while bytes.len() < size {
        if random.one_in(EMPTY) {
            bytes.resize(bytes.len() + ENTRY, 0);
            continue;
        }
        let number = bytes.len() / ENTRY;
        let mut entry = entry(&mut random, number, kind);
        if random.one_in(DAMAGED) {
            damage(&mut random, &mut entry);
        }
        bytes.extend(entry.ended());
    }
    bytes
}

/// What an entry says of its file, beside the name. The parent is a reference, with the sequence in its upper 16 bits.
pub struct File {
    pub number: u64,
    pub sequence: u64,
    pub flags: u64,
    pub parent: u64,
}

/// An entry of any file.
fn entry(random: &mut Random, number: usize, kind: Kind) -> Entry {
    let file = File {
        number: number as u64,
        sequence: random.between(1, 9) as u64,
        flags: random.below(4) as u64,
        parent: random.below(1 << 22) as u64 | (random.between(1, 9) as u64) << 48,
    };
    match kind {
        Kind::Mixed => entry_of(random, &file, name),
        Kind::ManyAttributes => {
            let mut entry = named(random, &file, &[3], name);
            let (kind, length) = SHORT;
            for _ in 0..MANY {
                entry.attribute(kind, length);
            }
            entry
        }
        Kind::LongNames => {
            let entry = named(random, &file, &[2, 1], long_name);
            with_data(random, entry)
        }
    }
}

/// An entry with standard information, a name for Windows and DOS or one for each, and data in it or in clusters.
pub fn entry_of(random: &mut Random, file: &File, name: impl FnMut(&mut Random) -> Vec<u16>) -> Entry {
    let namespaces: &[u8] = if random.one_in(2) { &[3] } else { &[2, 1] };
    let entry = named(random, file, namespaces, name);
    with_data(random, entry)
}

/// An entry with standard information, and a name of each namespace.
fn named(random: &mut Random, file: &File, namespaces: &[u8], mut name: impl FnMut(&mut Random) -> Vec<u16>) -> Entry {
    let mut entry = Entry::new(FIRST, 0);
    entry.put(SEQUENCE, 2, file.sequence);
    entry.put(FLAGS, 2, file.flags);
    entry.put(NUMBER, 4, file.number);
    let (kind, length) = STANDARD_INFORMATION;
    entry.attribute(kind, length);
    for &namespace in namespaces {
        entry.name(&Name {
            parent: file.parent,
            namespace,
            units: if namespace == 2 {
                Name::of(12, 2).units
            } else {
                name(random)
            },
        });
    }
    entry
}

/// The entry with data in it or in clusters.
fn with_data(random: &mut Random, mut entry: Entry) -> Entry {
    let (kind, length) = DATA;
    let at = entry.attribute(kind, length);
    entry.put(at + NON_RESIDENT, 1, random.below(2) as u64);
    entry
}

/// Makes an entry one that is rejected or no candidate.
fn damage(random: &mut Random, entry: &mut Entry) {
    match random.below(4) {
        0 => entry.lay(0, b"BAAD"),
        1 => entry.put(SEQUENCE, 2, 0),
        2 => entry.put(FIRST_ATTRIBUTE, 2, random.number()),
        _ => entry.put(FIRST + STANDARD_INFORMATION.1 + CONTENT_SIZE, 4, 0),
    }
}
