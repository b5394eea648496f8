//! The exhaustive inputs for a listed record: every offset of a small extract, and every combination of what is left
//! of an extract, the length field and the version.

use super::edges::{example, length_edges};
use super::layout::{put, Layout, LARGEST, LAYOUTS, MAJOR_VERSION, V2, V3};

/// An extract and the offset of the record in it.
pub struct Input {
    pub kind: &'static str,
    pub offset: usize,
    pub bytes: Vec<u8>,
}

/// Offsets at which a sum with a few bytes would leave the 64 bits, and others far past any extract.
const FAR: [usize; 6] = [1 << 31, 1 << 32, 1 << 63, usize::MAX - 8, usize::MAX - 7, usize::MAX];

pub fn inputs() -> Vec<Input> {
    let mut inputs = Vec::new();
    offsets(&mut inputs);
    for layout in LAYOUTS {
        rests(layout, &mut inputs);
        names(layout, &mut inputs);
        largest(layout, &mut inputs);
    }
    inputs
}

/// A record of each version, zero words, a version 4 record and one that passes the end, at every offset and past it.
fn offsets(inputs: &mut Vec<Input>) {
    let mut extract = example(&V2);
    extract.extend([0; 16]);
    extract.extend(example(&V3));
    let mut other = example(&V3);
    put(&mut other, MAJOR_VERSION, 2, 4);
    extract.extend(other);
    let mut passing = example(&V2);
    let past = passing.len() as u64 + 1;
    put(&mut passing, 0, 4, past);
    extract.extend(passing);
    for offset in (0..extract.len() + 10).chain(FAR) {
        inputs.push(Input {
            kind: "every offset",
            offset,
            bytes: extract.clone(),
        });
    }
}

/// What is left of an extract around 8 bytes and around the fixed parts, with each edge of the length field and each
/// kind of version, where other bytes stand before the record or none.
fn rests(layout: &Layout, inputs: &mut Vec<Input>) {
    for rest in (0..=10).chain(54..=84) {
        for length in length_edges(rest) {
            for version in [0, 1, 2, 3, 4, 0x0200, 0x0203, 0x0302, 0xffff] {
                for offset in [0, 13] {
                    let mut record = example(layout);
                    record.resize(84, 0x61);
                    put(&mut record, 0, 4, length);
                    put(&mut record, MAJOR_VERSION, 2, version);
                    record.truncate(rest);
                    let mut bytes = vec![0x40; offset];
                    bytes.append(&mut record);
                    inputs.push(Input {
                        kind: "what is left",
                        offset,
                        bytes,
                    });
                }
            }
        }
    }
}

/// Names that end around the record's end, with more of the extract behind it: the name ends with the record, and its
/// place counts from there.
fn names(layout: &Layout, inputs: &mut Vec<Input>) {
    for offset in [0, 8, 100] {
        for name_length in 0..=6 {
            let whole = example(layout);
            let end = whole.len() - name_length;
            for name_offset in end - 1..=end + 1 {
                let mut bytes = vec![0x40; offset];
                bytes.extend(&whole);
                bytes.extend([0x62; 24]);
                put(&mut bytes, offset + layout.name_length, 2, name_length as u64);
                put(&mut bytes, offset + layout.name_offset, 2, name_offset as u64);
                inputs.push(Input {
                    kind: "name at the record's end",
                    offset,
                    bytes,
                });
            }
        }
    }
}

/// Records around the largest, in extracts that end one byte before them, with them and one byte after them.
fn largest(layout: &Layout, inputs: &mut Vec<Input>) {
    for length in LARGEST - 1..=LARGEST + 1 {
        for extract in 8 + length - 1..=8 + length + 1 {
            let mut bytes = vec![0x40; 8];
            bytes.extend(example(layout));
            bytes.resize(extract, 0x63);
            put(&mut bytes, 8, 4, length as u64);
            put(&mut bytes, 8 + layout.name_length, 2, 65400);
            inputs.push(Input {
                kind: "largest record",
                offset: 8,
                bytes,
            });
        }
    }
}
