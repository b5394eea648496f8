//! The exhaustive inputs: groups of numbers at which a parser decides, all combinations within a group, on slices that
//! are mostly small.

use super::layout::{put, Fields, Layout, FILE_REFERENCE, LARGEST, LAYOUTS, MAJOR_VERSION, MINOR_VERSION};

/// A slice for the parsers, with the layout that it is written in. Both parsers read it.
pub struct Input {
    pub kind: &'static str,
    pub layout: &'static Layout,
    pub bytes: Vec<u8>,
}

/// FILETIMEs at both ends of the 64 bits, around 0, around 1970 and around the second after it, and the carving range.
const TIMES: [i64; 16] = [
    i64::MIN,
    i64::MIN + 1,
    -116_444_736_000_000_000,
    -1,
    0,
    1,
    116_444_735_999_999_999,
    116_444_736_000_000_000,
    116_444_736_000_000_001,
    116_444_736_009_999_999,
    116_444_736_010_000_000,
    125_911_584_000_000_000,
    135_379_776_000_000_000,
    i64::MAX - 4_775_808,
    i64::MAX - 1,
    i64::MAX,
];

/// Numbers of 64 bits: around the 48 bits of an entry, the sign, and bytes that are all different.
const NUMBERS: [u64; 9] = [
    0,
    1,
    (1 << 48) - 1,
    1 << 48,
    (1 << 48) + 1,
    0x0123_4567_89ab_cdef,
    (1 << 63) - 1,
    1 << 63,
    u64::MAX,
];

pub fn inputs() -> Vec<Input> {
    let mut inputs = Vec::new();
    for layout in LAYOUTS {
        slice_lengths(layout, &mut inputs);
        length_fields(layout, &mut inputs);
        name_places(layout, &mut inputs);
        long_names(layout, &mut inputs);
        numbers(layout, &mut inputs);
        versions(layout, &mut inputs);
        single_bits(layout, &mut inputs);
    }
    inputs
}

/// The example record of the scope, with `ab` as its name.
pub fn example(layout: &Layout) -> Vec<u8> {
    let mut bytes = Vec::new();
    Fields::example(layout, 2).append(layout, &mut bytes);
    bytes.extend_from_slice(b"a\0b\0");
    bytes
}

/// The example record, cut or followed by other bytes, each another value, so that it has `length` bytes.
fn example_of(layout: &Layout, length: usize) -> Vec<u8> {
    let mut bytes = example(layout);
    let record = bytes.len();
    bytes.extend((record..length).map(|at| at as u8));
    bytes.truncate(length);
    bytes
}

/// Every slice length to 200: zeros, all bits set, the example, and the example with the slice's length in its length
/// field.
fn slice_lengths(layout: &'static Layout, inputs: &mut Vec<Input>) {
    for length in 0..=200 {
        let mut add = |kind, bytes| inputs.push(Input { kind, layout, bytes });
        add("zeros", vec![0; length]);
        add("all bits set", vec![0xff; length]);
        let mut bytes = example_of(layout, length);
        add("example of each length", bytes.clone());
        if length >= 4 {
            put(&mut bytes, 0, 4, length as u64);
            add("example as long as its slice", bytes);
        }
    }
}

/// The length fields at which a parser decides on a slice of `slice` bytes.
pub fn length_edges(slice: usize) -> impl Iterator<Item = u64> {
    const FIXED: [u64; 14] = [0, 1, 7, 8, 55, 56, 59, 60, 61, 75, 76, 77, 1 << 31, (1 << 32) - 1];
    let slice = slice as u64;
    let largest = LARGEST as u64;
    let around = [
        slice.saturating_sub(1),
        slice,
        slice + 1,
        largest - 1,
        largest,
        largest + 1,
    ];
    FIXED.into_iter().chain(around)
}

/// Slices around the fixed parts and around the largest record, each with the length fields at which a parser decides.
fn length_fields(layout: &'static Layout, inputs: &mut Vec<Input>) {
    let small = (54..=84).chain([LARGEST - 1, LARGEST, LARGEST + 1, LARGEST + 100]);
    for slice in small {
        for length in length_edges(slice) {
            let mut bytes = example_of(layout, slice);
            put(&mut bytes, 0, 4, length);
            inputs.push(Input {
                kind: "length field",
                layout,
                bytes,
            });
        }
    }
}

/// The example in a slice of `slice` bytes, with a record length and a name's place of its own.
fn named(layout: &Layout, slice: usize, record_length: usize, offset: usize, length: usize) -> Vec<u8> {
    let mut bytes = example_of(layout, slice);
    put(&mut bytes, 0, 4, record_length as u64);
    put(&mut bytes, layout.name_length, 2, length as u64);
    put(&mut bytes, layout.name_offset, 2, offset as u64);
    bytes
}

/// Short names at the fixed parts' ends, at the slice's end and past all, where the record ends with its fixed part and
/// where it ends with its slice.
fn name_places(layout: &'static Layout, inputs: &mut Vec<Input>) {
    for slice in (layout.fixed..=layout.fixed + 6).chain([100]) {
        for length in 0..=5 {
            let ends = (slice - length - 1)..=(slice - length + 1);
            let offsets = [0, 1, 59, 60, 61, 75, 76, 77, 65533, 65534, 65535]
                .into_iter()
                .chain(ends);
            for offset in offsets {
                for record_length in [layout.fixed, slice] {
                    let bytes = named(layout, slice, record_length, offset, length);
                    inputs.push(Input {
                        kind: "name place",
                        layout,
                        bytes,
                    });
                }
            }
        }
    }
}

/// Names so long, or so far away, that the sum of offset and length has more than 16 bits, with slices that end one
/// byte before their end, with it and one byte after it.
fn long_names(layout: &'static Layout, inputs: &mut Vec<Input>) {
    let places = [
        (0, 65535),
        (1, 65535),
        (60, 65534),
        (76, 65535),
        (65534, 65535),
        (65535, 65534),
        (65535, 65535),
    ];
    for (offset, length) in places {
        let end = offset + length;
        for slice in end - 1..=end + 1 {
            let bytes = named(layout, slice, layout.fixed, offset, length);
            inputs.push(Input {
                kind: "long name",
                layout,
                bytes,
            });
        }
    }
}

/// The times, and edge numbers in the USN and in both references' halves.
fn numbers(layout: &'static Layout, inputs: &mut Vec<Input>) {
    let mut add = |kind, offset, value| {
        let mut bytes = example(layout);
        put(&mut bytes, offset, 8, value);
        inputs.push(Input { kind, layout, bytes });
    };
    for time in TIMES {
        add("time", layout.filetime, time as u64);
    }
    for number in NUMBERS {
        add("USN", layout.usn, number);
        for half in (0..layout.reference).step_by(8) {
            add("reference", FILE_REFERENCE + half, number);
            add("reference", layout.parent_reference + half, number);
        }
    }
}

/// Versions that the parsers do not look at.
fn versions(layout: &'static Layout, inputs: &mut Vec<Input>) {
    for major in [0, 1, 2, 3, 4, 5, 0xffff] {
        for minor in [0, 1, 0xffff] {
            let mut bytes = example(layout);
            put(&mut bytes, MAJOR_VERSION, 2, major);
            put(&mut bytes, MINOR_VERSION, 2, minor);
            inputs.push(Input {
                kind: "version fields",
                layout,
                bytes,
            });
        }
    }
}

/// The example with each of its bits turned over.
fn single_bits(layout: &'static Layout, inputs: &mut Vec<Input>) {
    let whole = example(layout);
    for bit in 0..8 * whole.len() {
        let mut bytes = whole.clone();
        bytes[bit / 8] ^= 1 << (bit % 8);
        inputs.push(Input {
            kind: "single bit",
            layout,
            bytes,
        });
    }
}
