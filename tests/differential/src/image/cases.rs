//! The random images: one to eight entries sound and damaged, with names of every namespace, empty blocks and rubbish
//! in any order, whole or cut.

use super::ends::{name_at_a_sector_end, stored};
use super::layout::{
    Entry, Name, ARRAY, ARRAY_COUNT, ARRAY_OFFSET, CONTENT_OFFSET, CONTENT_SIZE, END, ENTRY, FILE_NAME, FIRST,
    FIRST_ATTRIBUTE, FLAGS, LENGTH, NAME, NAMESPACE, NON_RESIDENT, NUMBER, RESIDENT, SEQUENCE, SIGNATURE, UNITS,
};
use crate::names::cases::unit;
use crate::random::Random;
use crate::records::layout::number;

/// The most entries of a random image.
const ENTRIES: usize = 8;

/// The most attributes that are written to an entry.
const ATTRIBUTES: usize = 24;

/// Fills `bytes` with an image; gives its kind and how many entries were written.
pub fn fill(random: &mut Random, bytes: &mut Vec<u8>) -> (&'static str, u64) {
    bytes.clear();
    let entries = random.between(1, ENTRIES);
    for _ in 0..entries {
        append(random, bytes);
    }
    let kind = match random.below(16) {
        0 => {
            let end = random.below(bytes.len() + 1);
            bytes.truncate(end);
            "cut image"
        }
        1 => {
            let more = random.below(ENTRY);
            random.append(bytes, more);
            "image and a part of an entry"
        }
        _ => "image",
    };
    (kind, entries as u64)
}

/// Appends an entry or another block of the same length. What is wrong with an entry is so before it is stored, or as
/// often after it.
fn append(random: &mut Random, bytes: &mut Vec<u8>) {
    let start = bytes.len();
    let entry = match random.below(32) {
        0..=9 => realistic(random),
        10..=16 => any(random),
        17..=20 => {
            let mut entry = realistic(random);
            edge_field(random, &mut entry.bytes);
            entry
        }
        21..=24 => {
            let mut entry = any(random);
            for _ in 0..random.between(1, 3) {
                edge_field(random, &mut entry.bytes);
            }
            entry
        }
        25..=27 => {
            let mut entry = realistic(random);
            if random.one_in(2) {
                damage(random, &mut entry.bytes);
                bytes.extend(stored(random, entry));
            } else {
                bytes.extend(stored(random, entry));
                damage(random, &mut bytes[start..]);
            }
            return;
        }
        28 => many(random),
        29 => return bytes.resize(start + ENTRY, 0),
        30 => return random.append(bytes, ENTRY),
        _ => rubbish(random),
    };
    bytes.extend(stored(random, entry));
}

/// An entry as a volume has them: standard information, one or two names, data.
fn realistic(random: &mut Random) -> Entry {
    let mut entry = header(random, FIRST, 0);
    entry.attribute(0x10, 96);
    match random.below(4) {
        0 => {
            short_name(random, &mut entry, 2);
            short_name(random, &mut entry, 1);
        }
        1 => short_name(random, &mut entry, 0),
        _ => short_name(random, &mut entry, 3),
    }
    entry.attribute(0x80, 72);
    entry.end()
}

fn short_name(random: &mut Random, entry: &mut Entry, namespace: u8) {
    let mut name = Name::of(random.between(1, 30), namespace);
    name.parent = random.below(1 << 20) as u64 | (random.below(1 << 16) as u64) << 48;
    for unit in &mut name.units {
        *unit = 0x20 + random.below(0x2000) as u16;
    }
    match random.one_in(3) {
        true => name_at_a_sector_end(random, entry, &name),
        false => {
            entry.name(&name);
        }
    }
}

/// A header of any numbers; the sequence is seldom 0.
fn header(random: &mut Random, first: usize, filler: u8) -> Entry {
    let mut entry = Entry::new(first, filler);
    let sequence = match random.below(16) {
        0 => random.pick(&[0, 1, 65535]),
        _ => random.number() % 65536,
    };
    entry.put(SEQUENCE, 2, sequence);
    entry.put(FLAGS, 2, random.number() >> random.pick(&[62, 62, 48]));
    entry.put(NUMBER, 4, random.number());
    entry
}

/// An entry with attributes of any kind, as long as there is room.
fn any(random: &mut Random) -> Entry {
    let first = match random.below(4) {
        0 => random.between(54, 600),
        1 => random.pick(&[48, 53, 54, 55, 900]),
        _ => FIRST,
    };
    let filler = random.pick(&[0, 0, 0, 1, 0x30, 0xff]);
    let mut entry = header(random, first, filler);
    for _ in 0..random.below(8) {
        if entry.next + 8 > ENTRY {
            break;
        }
        attribute(random, &mut entry);
    }
    if random.one_in(8) {
        entry
    } else {
        entry.end()
    }
}

/// Appends an attribute: a name of any namespace, as often as not with a number at which it is refused, or another.
fn attribute(random: &mut Random, entry: &mut Entry) {
    match random.below(8) {
        0 => {
            let length = random.pick(&[8, 16, 24, 40, 96, 200]);
            let kind = random.pick(&[0x10, 0x20, 0x40, 0x80, 0x90, FILE_NAME]);
            entry.attribute(kind, length);
        }
        1 => {
            let at = entry.attribute(random.pick(&[FILE_NAME, 0x80]), random.between(24, 160));
            entry.put(at + NON_RESIDENT, 1, random.pick(&[1, 1, 2, 255]));
        }
        2 => {
            let name = any_name(random);
            name_at_a_sector_end(random, entry, &name);
        }
        choice => {
            let name = any_name(random);
            let at = entry.name(&name);
            if choice < 6 {
                edge_name(random, entry, at, &name);
            }
        }
    }
}

/// A name of any units; a long one is rare, since it leaves no room for others.
fn any_name(random: &mut Random) -> Name {
    let units = match random.below(16) {
        0 => random.pick(&[254, 255]),
        1 => random.between(0, 120),
        _ => random.between(1, 16),
    };
    Name {
        parent: random.number(),
        namespace: random.pick(&[0, 1, 2, 3, 2, 0, 4, 255]),
        units: (0..units).map(|_| unit(random)).collect(),
    }
}

/// Gives the name at an attribute a number at which it may be refused.
fn edge_name(random: &mut Random, entry: &mut Entry, at: usize, name: &Name) {
    let shortest = name.attribute_length();
    match random.below(6) {
        0 => entry.put(
            at + CONTENT_SIZE,
            4,
            random.pick(&[0, 65, 66, 67, 0x1_0000, 0x1_0041, u64::MAX]),
        ),
        1 => {
            let offset = random.pick(&[0, 8, 16, 23, 25, 26, 64, 1000, 65535]);
            entry.put(at + CONTENT_OFFSET, 2, offset as u64);
        }
        2 => entry.put(
            at + RESIDENT + UNITS,
            1,
            random.pick(&[0, 1, 255, name.units.len() as u64 + 1]),
        ),
        3 => {
            let length = (shortest + random.below(5)) - 2;
            entry.put(at + LENGTH, 4, length as u64);
            entry.next = at + length;
        }
        4 => entry.put(at + NON_RESIDENT, 1, random.pick(&[1, 2, 128, 255])),
        _ => {
            // The content stands elsewhere in a longer attribute.
            let offset = random.between(0, 120);
            let length = offset + NAME + 2 * name.units.len() + random.below(3);
            entry.put(at + LENGTH, 4, length as u64);
            entry.put(at + CONTENT_OFFSET, 2, offset as u64);
            let hidden = RESIDENT.saturating_sub(offset);
            entry.lay(at + offset + hidden, &name.content()[hidden..]);
            entry.next = at + length;
        }
    }
}

/// An entry with about as many attributes as are walked, most of them short, and a name or two among them.
fn many(random: &mut Random) -> Entry {
    let mut entry = header(random, FIRST, 0);
    let count = random.between(15, ATTRIBUTES);
    let named = [random.below(count), random.between(15, ATTRIBUTES)];
    for attribute in 0..count {
        if named.contains(&attribute) {
            let namespace = random.pick(&[0, 1, 2, 3]);
            short_name(random, &mut entry, namespace);
        } else {
            entry.attribute(0x80, random.pick(&[8, 16, 24]));
        }
    }
    entry.end()
}

/// Gives an entry a number at which the carver decides, in the header or in one of its attributes.
fn edge_field(random: &mut Random, entry: &mut [u8]) {
    let mut put = |at: usize, width: usize, value: u64| {
        if at + width <= ENTRY {
            entry[at..at + width].copy_from_slice(&value.to_le_bytes()[..width]);
        }
    };
    match random.below(8) {
        0 => put(SEQUENCE, 2, random.pick(&[0, 1, 255, 256, 65535])),
        1 => {
            let first = random.pick(&[0, 46, 47, 48, 49, 152, 1014, 1015, 1016, 1017, 65535]);
            put(FIRST_ATTRIBUTE, 2, first);
        }
        2 => put(random.below(4), 1, random.number() % 256),
        choice => {
            let at = some_attribute(random, entry);
            let mut put = |field: usize, width: usize, value: u64| {
                let at = at + field;
                if at + width <= ENTRY {
                    entry[at..at + width].copy_from_slice(&value.to_le_bytes()[..width]);
                }
            };
            match choice {
                3 => put(0, 4, random.pick(&[FILE_NAME, END, 0x10, 0x3000, 0x1_0030])),
                4 => {
                    let rest = ENTRY.saturating_sub(at) as u64;
                    put(
                        LENGTH,
                        4,
                        random.pick(&[0, 7, 8, 9, rest - 1, rest, rest + 1, 0xffff_fff8]),
                    );
                }
                5 => put(NON_RESIDENT, 1, random.pick(&[0, 1, 255])),
                6 => put(CONTENT_OFFSET, 2, random.pick(&[0, 24, 24, 25, 65535])),
                _ => put(RESIDENT + NAMESPACE, 1, random.pick(&[0, 1, 2, 3, 4])),
            }
        }
    }
}

/// The offset of one of the first attributes that a walk would meet.
fn some_attribute(random: &mut Random, entry: &[u8]) -> usize {
    let mut at = (number(entry, FIRST_ATTRIBUTE, 2) as usize).min(ENTRY - 8);
    for _ in 0..random.below(4) {
        let next = at + number(entry, at + LENGTH, 4) as usize;
        if next + 8 > ENTRY {
            break;
        }
        at = next;
    }
    at
}

/// Changes one to four bytes, most of them in the header and in the attributes.
fn damage(random: &mut Random, entry: &mut [u8]) {
    for _ in 0..random.between(1, 4) {
        let at = match random.below(4) {
            0 => random.below(ENTRY),
            1 => random.below(FIRST),
            _ => random.between(FIRST, 400),
        };
        entry[at] ^= match random.below(2) {
            0 => 1 << random.below(8),
            _ => random.between(1, 255) as u8,
        };
    }
}

/// Random bytes behind a signature, a first attribute offset that is accepted and mostly an array's place; half of their
/// words are so small that they may be lengths, types and flags.
fn rubbish(random: &mut Random) -> Entry {
    let mut bytes = Vec::new();
    for _ in 0..ENTRY / 4 {
        let number = random.number();
        let word = match number % 4 {
            0 => number >> 8,
            1 => FILE_NAME,
            _ => (number >> 8) % 128,
        } as u32;
        bytes.extend_from_slice(&word.to_le_bytes());
    }
    let mut entry = Entry::of(bytes);
    entry.lay(0, &SIGNATURE);
    entry.put(FIRST_ATTRIBUTE, 2, 4 * random.between(12, 250) as u64);
    if !random.one_in(4) {
        entry.put(ARRAY_OFFSET, 2, ARRAY as u64);
        entry.put(ARRAY_COUNT, 2, 3);
    }
    entry
}
