//! The journals that the scope knows by name, with what it says of each reader.

use crate::journals::edges::{header, laid};
use crate::journals::walks::{FIRST_TIME, LAST_TIME};
use crate::records::edges::example;
use crate::records::layout::{put, Layout, LAYOUTS, V2};

/// A journal and the offsets of the records that the readers give of it.
pub struct Known {
    pub name: &'static str,
    pub bytes: Vec<u8>,
    pub scanned: &'static [usize],
    pub carved: &'static [usize],
    /// The candidates that the carver rejects, for their time and for their structure.
    pub rejected: [u64; 2],
    pub windowed: &'static [usize],
}

/// Record E, P1, P4, P5 and P6; P6 in both versions.
pub fn cases() -> Vec<Known> {
    let example = example(&V2);
    let with = |length, version, at| laid(&header(length, version), &example, at);
    let known = |name, bytes, scanned, carved, windowed| Known {
        name,
        bytes,
        scanned,
        carved,
        rejected: [0, 0],
        windowed,
    };
    let mut cases = vec![
        known("E", example.clone(), &[0], &[0], &[0]),
        known("P1", Vec::new(), &[], &[], &[]),
        known("P4, E at 8", with(48, 9, 8), &[8], &[8], &[]),
        known("P4, E at 48", with(48, 9, 48), &[48], &[48], &[48]),
        known("P5", with(96, 2, 8), &[], &[8], &[]),
    ];
    for layout in LAYOUTS {
        cases.extend([
            timed("P6, before the first time", layout, FIRST_TIME - 1, false),
            timed("P6, the first time", layout, FIRST_TIME, false),
            timed("P6, the last time", layout, LAST_TIME, false),
            timed("P6, after the last time", layout, LAST_TIME + 1, false),
            timed("P6, bad name offset and time", layout, LAST_TIME + 1, true),
        ]);
    }
    cases
}

/// The example with a time of its own, and with its name's offset one too high where it is misplaced.
fn timed(name: &'static str, layout: &Layout, time: i64, misplaced: bool) -> Known {
    let mut bytes = example(layout);
    put(&mut bytes, layout.filetime, 8, time as u64);
    if misplaced {
        put(&mut bytes, layout.name_offset, 2, layout.fixed as u64 + 1);
    }
    let in_range = (FIRST_TIME..=LAST_TIME).contains(&time);
    Known {
        name,
        bytes,
        scanned: &[0],
        carved: if in_range && !misplaced { &[0] } else { &[] },
        rejected: [u64::from(!in_range && !misplaced), u64::from(misplaced)],
        windowed: &[0],
    }
}
