//! The exhaustive journals: groups of numbers at which a reader decides, all combinations within a group. Record E
//! stands where a reader comes to if it moves by one rule or by another, so that the records show its way.

use super::walks::{FIRST_TIME, LAST_TIME};
use crate::records::edges::example;
use crate::records::layout::{put, Layout, LARGEST, LAYOUTS, MAJOR_VERSION, V2, V3};

/// A journal for the readers.
pub struct Input {
    pub kind: &'static str,
    pub bytes: Vec<u8>,
}

pub fn inputs() -> Vec<Input> {
    let mut inputs = Vec::new();
    for layout in LAYOUTS {
        lengths(layout, &mut inputs);
        names(layout, &mut inputs);
        times(layout, &mut inputs);
        overlaps(layout, &mut inputs);
    }
    large_lengths(&mut inputs);
    cuts(&mut inputs);
    zeros(&mut inputs);
    half_zero_words(&mut inputs);
    single_bits(&mut inputs);
    packed(&mut inputs);
    inputs
}

/// The first 8 bytes of a record, without the rest.
pub fn header(length: usize, version: u16) -> [u8; 8] {
    let mut header = [0; 8];
    put(&mut header, 0, 4, length as u64);
    put(&mut header, MAJOR_VERSION, 2, version.into());
    header
}

/// The bytes with others laid over them at an offset, and zeros between them where they do not meet.
pub fn laid(under: &[u8], over: &[u8], at: usize) -> Vec<u8> {
    let mut bytes = under.to_vec();
    bytes.resize(bytes.len().max(at + over.len()), 0);
    bytes[at..at + over.len()].copy_from_slice(over);
    bytes
}

/// Every kind of version with the lengths at which a reader decides, E at each of the first words, and the journal
/// ending around the record's end and behind E.
fn lengths(layout: &Layout, inputs: &mut Vec<Input>) {
    const LENGTHS: [usize; 18] = [0, 7, 8, 9, 48, 55, 56, 57, 59, 60, 61, 63, 64, 65, 75, 76, 77, 80];
    for version in [0, 1, 2, 3, 4, 5, 0x0302, 0xffff] {
        for length in LENGTHS {
            for at in (8..=88).step_by(8) {
                let mut record = example(layout);
                record[..6].copy_from_slice(&header(length, version)[..6]);
                let whole = laid(&record, &example(&V2), at);
                let ends = [length.saturating_sub(1), length, length + 1, whole.len()];
                for end in ends.into_iter().filter(|&end| end <= whole.len()) {
                    inputs.push(Input {
                        kind: "length and version",
                        bytes: whole[..end].to_vec(),
                    });
                }
            }
        }
    }
}

/// Lengths around the largest, E in the record, right behind it and a word later, and the journal ending around the
/// record's end and behind E.
fn large_lengths(inputs: &mut Vec<Input>) {
    for version in [2, 3, 4, 9] {
        for length in LARGEST - 1..=LARGEST + 1 {
            for at in [8, LARGEST, LARGEST + 8] {
                let mut whole = laid(&header(length, version), &example(&V2), at);
                whole.resize(LARGEST + 100, 0);
                for end in [length - 1, length, length + 1, whole.len()] {
                    inputs.push(Input {
                        kind: "largest record",
                        bytes: whole[..end].to_vec(),
                    });
                }
            }
        }
    }
}

/// The names at which the carver decides: offset, length and record's end, with a time that is carved and one that is
/// not.
fn names(layout: &Layout, inputs: &mut Vec<Input>) {
    let fixed = layout.fixed;
    for name_offset in [0, 59, 60, 61, 75, 76, 77, 65535] {
        for room in [0, 1, 4, 5, 8] {
            for name_length in [0, 1, 2, 3, 4, 5, 6, 7, 8, 9, 10, 65534, 65535] {
                for time in [FIRST_TIME, FIRST_TIME - 1] {
                    let mut record = example(layout);
                    record.resize(fixed + 8, 0x62);
                    put(&mut record, 0, 4, (fixed + room) as u64);
                    put(&mut record, layout.name_offset, 2, name_offset);
                    put(&mut record, layout.name_length, 2, name_length);
                    put(&mut record, layout.filetime, 8, time as u64);
                    let behind = (fixed + room).next_multiple_of(8);
                    inputs.push(Input {
                        kind: "name place",
                        bytes: laid(&record, &example(&V2), behind),
                    });
                }
            }
        }
    }
}

/// Times at the ends of the carving range and of the 64 bits, where the name's place is good and where it is not.
fn times(layout: &Layout, inputs: &mut Vec<Input>) {
    let range = [FIRST_TIME, LAST_TIME].into_iter().flat_map(|end| end - 1..=end + 1);
    for time in range.chain([i64::MIN, -FIRST_TIME, -1, 0, 1, i64::MAX]) {
        for name_offset in [layout.fixed - 1, layout.fixed] {
            let mut bytes = example(layout);
            put(&mut bytes, layout.filetime, 8, time as u64);
            put(&mut bytes, layout.name_offset, 2, name_offset as u64);
            inputs.push(Input { kind: "time", bytes });
        }
    }
}

/// A record with another laid over it at each of its words, so that both may be candidates; the lower one is as long as
/// its bytes, or so long that it holds the upper one, and its time is carved or not.
fn overlaps(layout: &Layout, inputs: &mut Vec<Input>) {
    for upper in LAYOUTS {
        for at in (8..=88).step_by(8) {
            for length in [None, Some(160), Some(176)] {
                for time in [FIRST_TIME, FIRST_TIME - 1] {
                    let mut lower = example(layout);
                    put(&mut lower, layout.filetime, 8, time as u64);
                    if let Some(length) = length {
                        put(&mut lower, 0, 4, length);
                    }
                    let mut bytes = laid(&lower, &example(upper), at);
                    bytes.resize(176, 0);
                    inputs.push(Input { kind: "overlap", bytes });
                }
            }
        }
    }
}

/// A journal of each kind of record, cut at every byte: whole, of version 4, damaged, of odd length, and zero words.
fn cuts(inputs: &mut Vec<Input>) {
    let mut range = example(&V3);
    put(&mut range, MAJOR_VERSION, 2, 4);
    let mut unknown = example(&V2);
    put(&mut unknown, MAJOR_VERSION, 2, 7);
    let mut odd = example(&V2);
    put(&mut odd, 0, 4, 61);
    put(&mut odd, V2.name_length, 2, 1);
    let parts = [
        odd,
        vec![0; 24],
        example(&V3),
        range,
        unknown,
        example(&V2),
        example(&V3),
    ];
    let whole = parts.concat();
    for end in 0..=whole.len() {
        inputs.push(Input {
            kind: "cut journal",
            bytes: whole[..end].to_vec(),
        });
    }
}

/// Runs of zeros of every length to 200, whether or not a word ends there, before E and behind it.
fn zeros(inputs: &mut Vec<Input>) {
    for count in 0..=200 {
        let gap = vec![0; count];
        for parts in [[&gap[..], &example(&V2)], [&example(&V2), &gap[..]]] {
            inputs.push(Input {
                kind: "zeros",
                bytes: parts.concat(),
            });
        }
        inputs.push(Input {
            kind: "zeros",
            bytes: gap,
        });
    }
}

/// Zero words of which one byte is set, to any number, before E.
fn half_zero_words(inputs: &mut Vec<Input>) {
    for at in 0..48 {
        for byte in 1..=255 {
            let mut zeros = [0; 96];
            zeros[at] = byte;
            inputs.push(Input {
                kind: "a byte among zeros",
                bytes: laid(&zeros, &example(&V2), zeros.len()),
            });
        }
    }
}

/// A version 3 record between two of version 2, with each of its bits turned over.
fn single_bits(inputs: &mut Vec<Input>) {
    let whole = [example(&V2), example(&V3), example(&V2)].concat();
    for bit in 0..8 * whole.len() {
        let mut bytes = whole.clone();
        bytes[bit / 8] ^= 1 << (bit % 8);
        inputs.push(Input {
            kind: "single bit",
            bytes,
        });
    }
}

/// One to twenty records without a gap, and a few bytes behind them that are too few for a header.
fn packed(inputs: &mut Vec<Input>) {
    for layout in LAYOUTS {
        for count in 1..=20 {
            for behind in [0, 1, 7, 8, 9] {
                let mut bytes = example(layout).repeat(count);
                bytes.resize(bytes.len() + behind, 0x3c);
                inputs.push(Input {
                    kind: "packed records",
                    bytes,
                });
            }
        }
    }
}
