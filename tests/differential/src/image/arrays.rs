//! The exhaustive entries whose update sequence array decides, and those of which something lies at a sector's end: its
//! true bytes are in the array alone, or what is stored there only looks right.

use super::edges::Push;
use super::layout::{
    Entry, Name, ARRAY, ARRAY_BYTES, ARRAY_COUNT, CHECK, ENTRY, FIRST, FIRST_ATTRIBUTE, FLAGS, NAME, NUMBERS, RESIDENT,
    SECTOR_ENDS,
};
use crate::records::layout::{number, put};

/// Check values of which a byte, or both, could be what decides: zeros, ones, a type and a length.
const CHECKS: [u16; 9] = [CHECK, 0, 1, 0x100, 0xff, 0xff00, 0xffff, 0x30, 0x3000];

/// Every array's count, place and first number, and what stands at the sectors' ends.
pub fn entries(push: &mut Push) {
    counts(push);
    offsets(push);
    ends(push);
    check_values(push);
    names_at_ends(push);
    attributes_at_ends(push);
    single_bits(push);
}

/// The entry with its array at any offset, where every test that the offset itself does not fail is passed: what of the
/// array would lie in an attribute is as the attribute has it, and both sectors end with what stands at the offset, 0
/// behind the entry. Fields of the header that decide are not written over.
pub fn with_array(mut entry: Entry, offset: usize) -> Vec<u8> {
    // Equal bytes, so that an odd offset and an array over a sector's end have them too.
    entry.check = 0x5a5a;
    entry.array_at(offset);
    let first = number(&entry.bytes, FIRST_ATTRIBUTE, 2) as usize;
    if offset + ARRAY_BYTES > first && offset + ARRAY_BYTES <= ENTRY {
        let last = [
            entry.bytes[offset + ARRAY_BYTES - 2],
            entry.bytes[offset + ARRAY_BYTES - 1],
        ];
        entry.lay(SECTOR_ENDS[1], &last);
    }
    let mut bytes = match offset {
        0..=FLAGS => entry.bytes,
        _ => entry.stored(),
    };
    let at_offset = if offset + 2 <= ENTRY {
        number(&bytes, offset, 2)
    } else {
        0
    };
    for at in SECTOR_ENDS {
        put(&mut bytes, at, 2, at_offset);
    }
    bytes
}

/// The same entry where its stored and true ends agree; none where the true ends are not equal, or the array is not the
/// usual one.
pub fn as_stored(entry: &[u8]) -> Option<Vec<u8>> {
    let numbers: Vec<u64> = (0..NUMBERS).map(|at| number(entry, ARRAY + 2 * at, 2)).collect();
    let stored = SECTOR_ENDS.iter().all(|&at| number(entry, at, 2) == numbers[0]);
    if !stored || numbers[1] != numbers[2] {
        return None;
    }
    let mut bytes = entry.to_vec();
    for at in SECTOR_ENDS.into_iter().chain([ARRAY]) {
        put(&mut bytes, at, 2, numbers[1]);
    }
    Some(bytes)
}

/// An entry whose one name stands in its first attribute, at this offset.
fn named(first: usize, name: &Name) -> Entry {
    let mut entry = Entry::new(first, 0);
    let header = entry.bytes[..FLAGS].to_vec();
    entry.fitting_name(name);
    entry.lay(0, &header);
    entry.end()
}

/// An entry with a name over the end of a sector, that ends with it.
fn over(end: usize) -> Entry {
    let name = Name::of(4, 1);
    named(end + 2 - name.attribute_length(), &name)
}

/// Counts of 0 to 6 and large ones, of which twice the number wraps or has the low byte of 3.
fn counts(push: &mut Push) {
    let large = [7, 255, 256, 259, 768, 0x7fff, 0x8000, 0x8001, 0x8003, 0xfffd, 0xffff];
    for count in (0..=6).chain(large) {
        for first in [54, 55, 56, 57, 58, 60, 64, 120, 600] {
            let mut entry = named(first, &Name::of(2, 1));
            entry.put(ARRAY_COUNT, 2, count);
            push("array count", entry.stored());
        }
    }
}

/// Every array offset to the second sector, and far ones, with the first attribute just behind the array, one and two bytes
/// before its end and behind it, and elsewhere.
fn offsets(push: &mut Push) {
    let far = [
        1012, 1016, 1018, 1020, 1022, 1023, 1024, 2048, 0x8000, 0xfffa, 0xfffc, 0xfffd, 0xfffe, 0xffff,
    ];
    for offset in (0..=520).chain(far) {
        let end = offset + ARRAY_BYTES;
        let around = (end - 2..=end + 2).filter(|&first| first < 900);
        for first in around.chain([FIRST, 510, 511, 512, 600, 900]) {
            push("array offset", with_array(named(first, &Name::of(2, 1)), offset));
        }
    }
}

/// Each byte of the sectors' ends and of the array's first number with every value, and ends that are alike and not the
/// array's first number.
fn ends(push: &mut Push) {
    for whole in SECTOR_ENDS.map(|end| over(end).stored()) {
        let bytes = SECTOR_ENDS.into_iter().chain([ARRAY]).flat_map(|at| [at, at + 1]);
        for at in bytes {
            for value in 0..=255 {
                let mut entry = whole.clone();
                entry[at] = value;
                push("stored sector end", entry);
            }
        }
        for value in CHECKS.into_iter().chain([CHECK ^ 1, CHECK ^ 0x100, CHECK.swap_bytes()]) {
            let mut entry = whole.clone();
            for at in SECTOR_ENDS {
                put(&mut entry, at, 2, value.into());
            }
            push("stored sector end", entry);
        }
    }
}

/// Check values of every kind, those among them that are the true end of a sector or of both.
fn check_values(push: &mut Push) {
    for mut entry in [
        named(FIRST, &Name::of(3, 1)),
        over(SECTOR_ENDS[0]),
        over(SECTOR_ENDS[1]),
    ] {
        let ends = SECTOR_ENDS.map(|at| number(&entry.bytes, at, 2));
        for check in CHECKS.into_iter().chain(ends.map(|end| end as u16)) {
            entry.check = check;
            push("check value", entry.clone().stored());
        }
        for end in ends {
            let mut alike = entry.clone();
            SECTOR_ENDS.into_iter().for_each(|at| alike.put(at, 2, end));
            alike.check = end as u16;
            push("check value", alike.stored());
        }
    }
}

/// Names of a few lengths, also a pair of surrogates, that begin at every offset from which they end before, at and behind
/// a sector's end, odd ones too.
fn names_at_ends(push: &mut Push) {
    let pair = Name {
        units: vec![0x61, 0xd83d, 0xde00, 0x62],
        ..Name::of(0, 1)
    };
    let names = [1, 2, 3, 20, 255].map(|units| Name::of(units, 1));
    for name in names.iter().chain([&pair]) {
        let length = 2 * name.units.len();
        for end in SECTOR_ENDS {
            let last = (end + 3).min(ENTRY - length);
            for start in (end - 2)
                .saturating_sub(length)
                .max(ARRAY + ARRAY_BYTES + RESIDENT + NAME)..=last
            {
                push("name at a sector end", named(start - RESIDENT - NAME, name).stored());
            }
        }
    }
}

/// A name's attribute that begins at every offset from which a byte of it lies at a sector's end, as the first attribute
/// and behind another, with every check value; and the same where what is stored looks right and the true end is another.
fn attributes_at_ends(push: &mut Push) {
    let name = Name::of(3, 1);
    let length = name.attribute_length();
    for end in SECTOR_ENDS {
        for at in end - length..=(end + 2).min(ENTRY - length) {
            let first = named(at, &name);
            let mut second = Entry::new(FIRST, 0);
            second.attribute(0x10, at - FIRST);
            second.fitting_name(&name);
            for mut entry in [first, second.end()] {
                for check in CHECKS {
                    entry.check = check;
                    push("attribute at a sector end", entry.clone().stored());
                }
                entry.check = number(&entry.bytes, end, 2) as u16;
                for true_end in CHECKS {
                    entry.put(end, 2, true_end.into());
                    push("true sector end in an attribute", entry.clone().stored());
                }
            }
        }
    }
}

/// Entries with a name over a sector's end, each of their bits turned over.
fn single_bits(push: &mut Push) {
    for whole in SECTOR_ENDS.map(|end| over(end).stored()) {
        for bit in 0..8 * whole.len() {
            let mut bytes = whole.clone();
            bytes[bit / 8] ^= 1 << (bit % 8);
            push("single bit", bytes);
        }
    }
}
