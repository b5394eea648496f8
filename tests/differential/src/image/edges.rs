//! The exhaustive entries and images: groups of numbers at which the carver decides, all combinations within a group. A
//! name stands where the carver comes to if it decides otherwise, so that what it carves shows its way. Every entry is
//! stored with a sound array; those of which the array decides are in `arrays`.

use super::arrays;
use super::layout::{
    sound, Entry, Name, CONTENT_OFFSET, CONTENT_SIZE, END, ENTRY, FILE_NAME, FIRST, FLAGS, LENGTH, NAME, NAMESPACE,
    NON_RESIDENT, NUMBER, RESIDENT, SEQUENCE, UNITS,
};

/// An entry or an image for the carver.
pub struct Input {
    pub kind: &'static str,
    pub bytes: Vec<u8>,
}

/// What the bytes of no meaning may be: a name that is read from the wrong place then has letters or is no name.
const FILLERS: [u8; 3] = [0x00, 0x01, 0xff];

/// The namespaces that the carver tells apart, and some that it does not.
const NAMESPACES: [u8; 6] = [0, 1, 2, 3, 4, 255];

/// Single entries.
pub fn entries() -> Vec<Input> {
    let mut inputs = Vec::new();
    let mut push = |kind, bytes| inputs.push(Input { kind, bytes });
    first_attributes(&mut push);
    header_fields(&mut push);
    attribute_lengths(&mut push);
    name_attribute_lengths(&mut push);
    content_sizes(&mut push);
    content_offsets(&mut push);
    name_lengths(&mut push);
    names_at_the_end(&mut push);
    flags_of_residence(&mut push);
    types(&mut push);
    many_attributes(&mut push);
    namespaces(&mut push);
    overlaps(&mut push);
    single_bits(&mut push);
    arrays::entries(&mut push);
    inputs
}

/// Whole images: of every length, and with entries that are not at a multiple of 1024.
pub fn images() -> Vec<Input> {
    let mut inputs = Vec::new();
    let three = sound().repeat(3);
    for length in 0..=three.len() {
        inputs.push(Input {
            kind: "image length",
            bytes: three[..length].to_vec(),
        });
    }
    for shift in 1..ENTRY {
        inputs.push(Input {
            kind: "shifted entries",
            bytes: [&vec![0; shift], &three[..2 * ENTRY]].concat(),
        });
    }
    for count in 1..=12 {
        inputs.push(Input {
            kind: "packed entries",
            bytes: sound().repeat(count),
        });
    }
    inputs
}

/// Takes an entry of a kind.
pub type Push<'a> = dyn FnMut(&'static str, Vec<u8>) + 'a;

/// An entry with one name, and the offset of its attribute.
fn named(filler: u8) -> (Entry, usize) {
    let mut entry = Entry::new(FIRST, filler);
    let at = entry.name(&Name::of(3, 1));
    (entry, at)
}

/// Every first attribute offset, with the name there as far as it lies inside.
fn first_attributes(push: &mut Push) {
    for first in (0..=ENTRY + 8).chain([2048, 32768, 65535]) {
        let mut entry = Entry::new(first, 0);
        let header = entry.bytes[..FLAGS].to_vec();
        entry.name(&Name::of(1, 1));
        // The header keeps its place, so that the offset alone decides.
        entry.lay(0, &header);
        push("first attribute", entry.ended());
    }
}

/// Each number of the header that is given or decides: sequence, flags, entry number, signature.
fn header_fields(push: &mut Push) {
    let with = |at, width, value| {
        let (mut entry, _) = named(0);
        entry.put(at, width, value);
        entry.ended()
    };
    for sequence in [0, 1, 255, 256, 32768, 65535] {
        push("sequence", with(SEQUENCE, 2, sequence));
    }
    for flags in (0..16).chain((4..16).map(|bit| 1 << bit)).chain(0xfffc..=0xffff) {
        push("flags", with(FLAGS, 2, flags));
    }
    for number in [0, 1, 255, 256, 65535, 65536, 0x0100_0000, 0x8000_0000, 0xffff_ffff] {
        push("entry number", with(NUMBER, 4, number));
    }
    for at in 0..4 {
        for byte in 0..=255 {
            push("signature", with(at, 1, byte));
        }
    }
}

/// An attribute of every length before the name, which stands where the length says, and lengths that wrap.
fn attribute_lengths(push: &mut Push) {
    let wrapping = [
        0x1_0000 - 8,
        0x1_0000 + 8,
        0x7fff_ffff,
        0x8000_0008,
        0xffff_fff8,
        0xffff_ffff,
    ];
    for length in (0..=ENTRY - FIRST + 2).chain(wrapping) {
        let mut entry = Entry::new(FIRST, 0);
        entry.put(FIRST, 4, 0x10);
        entry.put(FIRST + LENGTH, 4, length as u64);
        // A length that does not let the walk move on would bring it to this name if it moved by 8.
        entry.next = FIRST + if length < 8 { 8 } else { length % 0x1_0000 };
        entry.name(&Name::of(2, 1));
        push("attribute length", entry.ended());
    }
    // A walk that moved on by fewer than 8 bytes would meet an attribute which leads to a name.
    for length in 3..8 {
        let mut entry = Entry::new(FIRST, 0);
        entry.put(FIRST + length + LENGTH, 4, 256);
        entry.put(FIRST + LENGTH, 4, length as u64);
        entry.next = FIRST + length + 256;
        entry.name(&Name::of(2, 1));
        push("attribute length", entry.ended());
    }
}

/// The attribute that holds the name, of every length.
fn name_attribute_lengths(push: &mut Push) {
    for length in (0..=ENTRY - FIRST + 2).chain([0x1_0000 + 96, 0xffff_fff8, 0xffff_ffff]) {
        let (mut entry, at) = named(0);
        entry.put(at + LENGTH, 4, length as u64);
        push("length of the name's attribute", entry.stored());
    }
}

/// Content sizes around the smallest, and those of which only the low bytes are.
fn content_sizes(push: &mut Push) {
    for base in [0, 0x1_0000, 0x100_0000, 0x8000_0000] {
        for size in (0..=80).chain([255, 256]) {
            let (mut entry, at) = named(0);
            entry.put(at + CONTENT_SIZE, 4, base + size);
            push("content size", entry.ended());
        }
    }
}

/// The content at every offset, in attributes of a few lengths; what of it would lie in the attribute's header does
/// not.
fn content_offsets(push: &mut Push) {
    for filler in FILLERS {
        for length in [96, 97, 200, 968] {
            for offset in (0..=ENTRY + 2).chain([32768, 65535]) {
                let mut entry = Entry::new(FIRST, filler);
                let at = entry.attribute(FILE_NAME, length);
                entry.put(at + CONTENT_SIZE, 4, 72);
                entry.put(at + CONTENT_OFFSET, 2, offset as u64);
                let hidden = RESIDENT.saturating_sub(offset);
                entry.lay(at + offset + hidden, &Name::of(3, 1).content()[hidden..]);
                push("content offset", entry.stored());
            }
        }
    }
}

/// Every length of a name, in attributes that it just fills, that are a little shorter, and longer.
fn name_lengths(push: &mut Push) {
    for units in 0..=255 {
        for length in -2..=2 {
            let name = Name::of(units, 1);
            let mut entry = Entry::new(FIRST, 0);
            let at = entry.name(&name);
            let length = name.attribute_length().wrapping_add_signed(length);
            entry.put(at + LENGTH, 4, length as u64);
            entry.next = at + length;
            push("name length", entry.ended());
        }
    }
}

/// Names that end at, before and behind the end of the entry, in an attribute that ends there or nearly.
fn names_at_the_end(push: &mut Push) {
    for units in [1, 2, 20, 255] {
        for behind in -3..=3 {
            for ends in 0..=2 {
                for content_offset in [RESIDENT - 1, RESIDENT, RESIDENT + 1] {
                    let content = content_offset + NAME + 2 * units;
                    let at = (ENTRY - content).wrapping_add_signed(behind);
                    let mut entry = Entry::new(at, 0);
                    entry.attribute(FILE_NAME, ENTRY - ends - at);
                    entry.put(at + CONTENT_OFFSET, 2, content_offset as u64);
                    let hidden = RESIDENT.saturating_sub(content_offset);
                    entry.lay(at + content_offset + hidden, &Name::of(units, 1).content()[hidden..]);
                    push("name at the end", entry.stored());
                }
            }
        }
    }
}

/// Every flag of residence, and an attribute whose flag lies behind the entry.
fn flags_of_residence(push: &mut Push) {
    for flag in 0..=255 {
        let (mut entry, at) = named(0);
        entry.put(at + NON_RESIDENT, 1, flag);
        push("non-resident flag", entry.ended());
    }
    for filler in FILLERS {
        for at in ENTRY - 40..=ENTRY {
            for length in [8, 9, ENTRY - at] {
                let (mut entry, name) = named(filler);
                entry.put(name + NON_RESIDENT, 1, 1);
                entry.attribute(0x10, at.saturating_sub(entry.next));
                entry.next = at;
                entry.put(at, 4, FILE_NAME);
                entry.put(at + LENGTH, 4, length as u64);
                push("attribute at the end", entry.stored());
            }
        }
    }
}

/// Types of which some bytes are those of a name's attribute or of the end, and the end at every position.
fn types(push: &mut Push) {
    let ends = [0xff, 0xffff, 0xff_ffff, 0xffff_fffe, 0x7fff_ffff, END];
    let others = [
        0,
        0x10,
        0x20,
        0x2f,
        0x31,
        0x40,
        0x80,
        0x130,
        0x3000,
        0x3030,
        0x30_0030,
        0x3000_0000,
        0x3000_0030,
    ];
    for kind in ends.into_iter().chain(others) {
        for before in [false, true] {
            let mut entry = Entry::new(FIRST, 0);
            if before {
                entry.attribute(kind, 24);
            }
            let at = entry.name(&Name::of(3, 1));
            if !before {
                entry.put(at, 4, kind);
            }
            push("type", entry.ended());
        }
    }
    for count in 1..=6 {
        for end in 0..=count {
            let mut entry = Entry::new(FIRST, 0);
            for attribute in 0..count {
                let name = Name {
                    parent: attribute as u64,
                    ..Name::of(attribute + 1, 0)
                };
                let at = entry.name(&name);
                if attribute == end {
                    entry.put(at, 4, END);
                }
            }
            push("end among names", entry.ended());
        }
    }
}

/// 17 to 23 attributes with the name in each, alone or with another before it, and the end or none behind them.
fn many_attributes(push: &mut Push) {
    for count in 17..=23 {
        for named in 0..count {
            for length in [8, 16] {
                for second in [None, Some(0), Some(named / 2)] {
                    let mut entry = Entry::new(FIRST, 0);
                    for attribute in 0..count {
                        if attribute == named {
                            entry.name(&Name::of(9, 1));
                        } else if Some(attribute) == second {
                            entry.name(&Name::of(5, 0));
                        } else {
                            entry.attribute(0x80, length);
                        }
                    }
                    push("many attributes", entry.ended());
                }
            }
        }
    }
}

/// Two, three and four names of every namespace, each another name under another parent; and two names with one between
/// them that its attribute does not give.
fn namespaces(push: &mut Push) {
    let name = |at: usize, namespace| Name {
        parent: (at as u64 + 1) << 48 | (100 + at as u64),
        ..Name::of(at + 1, namespace)
    };
    for count in 1..=4 {
        for number in 0..NAMESPACES.len().pow(count) {
            let mut entry = Entry::new(FIRST, 0);
            for at in 0..count as usize {
                let digit = number / NAMESPACES.len().pow(at as u32) % NAMESPACES.len();
                entry.name(&name(at, NAMESPACES[digit]));
            }
            push("namespaces", entry.ended());
        }
    }
    let refused: [fn(&mut Entry, usize); 5] = [
        |entry, at| entry.put(at + NON_RESIDENT, 1, 1),
        |entry, at| entry.put(at + CONTENT_SIZE, 4, 65),
        |entry, at| entry.put(at + RESIDENT + UNITS, 1, 0),
        |entry, at| entry.put(at + RESIDENT + UNITS, 1, 200),
        |entry, at| entry.put(at, 4, 0x31),
    ];
    for refuse in refused {
        for number in 0..NAMESPACES.len().pow(3) {
            let digit = |at: u32| NAMESPACES[number / NAMESPACES.len().pow(at) % NAMESPACES.len()];
            let mut entry = Entry::new(FIRST, 0);
            entry.name(&name(0, digit(0)));
            let at = entry.name(&name(1, digit(1)));
            refuse(&mut entry, at);
            entry.name(&name(2, digit(2)));
            push("namespaces and a refused name", entry.ended());
        }
    }
}

/// A name's attribute whose content stands in the next attribute or around its beginning, and one that ends within its
/// own content, where the walk meets another attribute.
fn overlaps(push: &mut Push) {
    for filler in FILLERS {
        for length in [24, 32, 90, 92, 96, 120] {
            for offset in 0..=length + 120 {
                let mut entry = Entry::new(FIRST, filler);
                let at = entry.attribute(FILE_NAME, length);
                entry.name(&Name::of(4, 1));
                entry.put(at + CONTENT_SIZE, 4, 80);
                entry.put(at + CONTENT_OFFSET, 2, offset as u64);
                push("content in the next attribute", entry.ended());
            }
        }
    }
    for inner in (8..=200).step_by(4) {
        for namespace in NAMESPACES {
            let mut entry = Entry::new(FIRST, 0);
            let outer = entry.name(&Name::of(60, namespace));
            entry.next = outer + inner;
            entry.name(&Name::of(2, 0));
            entry.put(outer + LENGTH, 4, inner as u64);
            entry.put(outer + RESIDENT + NAMESPACE, 1, namespace.into());
            push("attribute in a content", entry.ended());
        }
    }
}

/// An entry with two names, each of its bits turned over.
fn single_bits(push: &mut Push) {
    let whole = sound();
    for bit in 0..8 * whole.len() {
        let mut bytes = whole.clone();
        bytes[bit / 8] ^= 1 << (bit % 8);
        push("single bit", bytes);
    }
}
