//! Journals of 65536 bytes and little less that are slow to list: every record's path goes by all 257 levels.

use crate::listing::BYTES;
use crate::record::{append, record, Key, Record, CREATE, ROOT};

/// Every such journal, by its name.
pub fn all() -> Vec<(&'static str, Vec<u8>)> {
    let number = |i: u64| Key(9 + i, 1);
    vec![
        ("shown", in_itself(84, number)),
        ("too-long", in_itself(86, number)),
        ("one-hash", in_itself(84, |i| Key(9 + (i << 32), 1))),
        ("ladder", ladder()),
    ]
}

/// A folder in itself, with a name of so many units, each of three bytes, and as many files in it as there is room for: with 84
/// units each path takes close to 65536 bytes, and with more it is not shown.
fn in_itself(units: usize, key: impl Fn(u64) -> Key) -> Vec<u8> {
    let folder = record(key(0), key(0), CREATE, &"\u{4E00}".repeat(units));
    let files = (1..).map(|i| record(key(i), key(0), CREATE, "aa"));
    filled(std::iter::once(folder).chain(files))
}

/// Folders in one another, 258 deep, and files in the last of them.
fn ladder() -> Vec<u8> {
    let step = |i: u64| if i == 0 { ROOT } else { Key(1000 + i, 1) };
    filled((1..).map(|i| record(step(i), step(i.min(259) - 1), CREATE, "a")))
}

/// As many of the records as 65536 bytes take.
fn filled(records: impl Iterator<Item = Record>) -> Vec<u8> {
    let mut journal = Vec::new();
    for record in records {
        let mut longer = journal.clone();
        append(&mut longer, &record.bytes());
        if longer.len() > BYTES {
            break;
        }
        journal = longer;
    }
    journal
}
