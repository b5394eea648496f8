//! The random inputs: records whole, cut, followed by other bytes and damaged, and bytes that are no record at all.

use super::layout::{put, Fields, Layout, LARGEST, LAYOUTS};
use crate::random::Random;

/// The units of the longest name of a random record.
const LONGEST_NAME: usize = 40;

/// Fills `bytes` with an input for the parsers; gives its kind and the layout that it is written in.
pub fn fill(random: &mut Random, bytes: &mut Vec<u8>) -> (&'static str, &'static Layout) {
    bytes.clear();
    let layout = random.pick(&LAYOUTS);
    let kind = match random.below(1000) {
        0..=249 => {
            record(random, layout, bytes);
            "record"
        }
        250..=449 => {
            record(random, layout, bytes);
            followed(random, layout, bytes);
            "record followed by other bytes"
        }
        450..=569 => {
            record(random, layout, bytes);
            let end = random.below(bytes.len());
            bytes.truncate(end);
            "record cut short"
        }
        570..=819 => {
            record(random, layout, bytes);
            if random.one_in(2) {
                followed(random, layout, bytes);
            }
            damage(random, layout, bytes);
            "damaged record"
        }
        820..=899 => {
            let length = random.below(201);
            random.append(bytes, length);
            "random bytes"
        }
        900..=997 => {
            edge_numbers(random, layout, bytes);
            "random fields with edge numbers"
        }
        _ => {
            large(random, layout, bytes);
            "large slice"
        }
    };
    (kind, layout)
}

/// Appends a record that its parser accepts. The name mostly stands behind the fixed part and the length is mostly
/// rounded up to 8; any field may have any value.
pub fn record(random: &mut Random, layout: &Layout, bytes: &mut Vec<u8>) {
    let start = bytes.len();
    let units = random.between(0, LONGEST_NAME);
    let named = layout.fixed + 2 * units;
    let length = match random.below(8) {
        0 => named,
        1 => named + random.below(17),
        _ => named.next_multiple_of(8),
    };
    let mut fields = fields(random, layout);
    fields.record_length = length as u32;
    fields.name_length = match random.below(16) {
        0 => 2 * units + 1,
        1 => random.below(2 * LONGEST_NAME + 2),
        _ => 2 * units,
    } as u16;
    fields.name_offset = match random.below(16) {
        0 => random.below(length + 2),
        _ => layout.fixed,
    } as u16;
    fields.append(layout, bytes);
    name(random, units, bytes);
    bytes.resize(start + length, 0);
}

/// Fields of any value, apart from the lengths, which the caller sets.
fn fields(random: &mut Random, layout: &Layout) -> Fields {
    let mut fields = Fields::example(layout, 0);
    fields.minor_version = if random.one_in(4) { random.number() as u16 } else { 0 };
    fields.file_reference = [reference(random), random.number()];
    fields.parent_reference = [reference(random), random.number()];
    fields.usn = if random.one_in(2) {
        random.number()
    } else {
        random.below(1 << 40) as u64
    };
    fields.filetime = filetime(random);
    fields.reason = random.number() as u32;
    fields.source_info = random.number() as u32;
    fields.security_id = random.number() as u32;
    fields.file_attributes = random.number() as u32;
    fields
}

fn reference(random: &mut Random) -> u64 {
    match random.below(8) {
        0 => 5 | 5 << 48,
        1 => u64::MAX - random.below(4) as u64,
        2 => (1 << 48) - 2 + random.below(4) as u64,
        3 => random.below(1 << 20) as u64 | (random.below(1 << 16) as u64) << 48,
        _ => random.number(),
    }
}

/// Mostly a time of the carving range; else within two seconds or a few ticks of 1970, a few ticks from 0, or any.
fn filetime(random: &mut Random) -> u64 {
    const EPOCH: u64 = 116_444_736_000_000_000;
    match random.below(8) {
        0 => EPOCH - 20_000_000 + random.below(40_000_000) as u64,
        1 => (random.pick(&[0, EPOCH]) + random.below(8) as u64).wrapping_sub(4),
        2 => random.number(),
        _ => 125_911_584_000_000_000 + random.below(9_468_192_000_000_000) as u64,
    }
}

/// Appends a name: half of them are sound UTF-16, the others may have unpaired surrogates anywhere.
fn name(random: &mut Random, units: usize, bytes: &mut Vec<u8>) {
    let sound = random.one_in(2);
    let end = bytes.len() + 2 * units;
    while bytes.len() < end {
        let pair_fits = bytes.len() + 4 <= end;
        match random.below(8) {
            0 if pair_fits => {
                unit(bytes, 0xd800 + random.below(0x400));
                unit(bytes, 0xdc00 + random.below(0x400));
            }
            1 if !sound => unit(bytes, 0xd800 + random.below(0x400)),
            2 if !sound => unit(bytes, 0xdc00 + random.below(0x400)),
            3 => unit(bytes, random.below(0xd800)),
            4 => unit(bytes, 0xe000 + random.below(0x1ffe)),
            _ => unit(bytes, 0x20 + random.below(0x5f)),
        }
    }
}

fn unit(bytes: &mut Vec<u8>, value: usize) {
    bytes.extend_from_slice(&(value as u16).to_le_bytes());
}

/// Appends bytes that do not belong to the record; the name then often runs on into them, or past them.
fn followed(random: &mut Random, layout: &Layout, bytes: &mut Vec<u8>) {
    let more = random.between(1, 100);
    random.append(bytes, more);
    if random.one_in(2) {
        let longest = bytes.len() - layout.fixed + 2;
        let length = random.between(longest.saturating_sub(more + 4), longest);
        put(bytes, layout.name_length, 2, length as u64);
    }
}

/// Changes one to four bytes, most of them in the fixed part, and the lengths and the name's offset most of all.
pub fn damage(random: &mut Random, layout: &Layout, bytes: &mut [u8]) {
    for _ in 0..random.between(1, 4) {
        let at = match random.below(8) {
            0 => random.below(bytes.len()),
            1 => random.below(4),
            2 => layout.name_length + random.below(4),
            _ => random.below(layout.fixed),
        };
        bytes[at] ^= match random.below(2) {
            0 => 1 << random.below(8),
            _ => random.between(1, 255) as u8,
        };
    }
}

/// Random bytes about as long as a fixed part, with a length field and a name's place at the edges of what is accepted.
fn edge_numbers(random: &mut Random, layout: &Layout, bytes: &mut Vec<u8>) {
    let slice = random.between(layout.fixed, layout.fixed + 60);
    random.append(bytes, slice);
    let lengths = [
        0,
        8,
        59,
        60,
        61,
        75,
        76,
        77,
        slice - 1,
        slice,
        slice + 1,
        LARGEST - 1,
        LARGEST,
        LARGEST + 1,
    ];
    put(bytes, 0, 4, random.pick(&lengths) as u64);
    let name_length = random.below(8);
    let ends = slice - name_length - 1 + random.below(3);
    let offsets = [
        0,
        layout.fixed - 1,
        layout.fixed,
        layout.fixed + 1,
        ends,
        65535 - random.below(4),
    ];
    put(bytes, layout.name_length, 2, name_length as u64);
    put(bytes, layout.name_offset, 2, random.pick(&offsets) as u64);
}

/// A slice around the largest record, with random bytes behind the fixed part and a name that may fill it all.
fn large(random: &mut Random, layout: &Layout, bytes: &mut Vec<u8>) {
    let slice = random.between(LARGEST - 100, LARGEST + 100);
    let mut fields = fields(random, layout);
    fields.record_length = random.pick(&[LARGEST - 1, LARGEST, LARGEST + 1, slice - 1, slice, slice + 1]) as u32;
    fields.name_length = random.between(65300, 65535) as u16;
    fields.name_offset = random.between(0, 200) as u16;
    fields.append(layout, bytes);
    random.append(bytes, slice - layout.fixed);
}
