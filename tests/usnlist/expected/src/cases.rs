//! The journals of tests/usnlist.

use crate::listing::BYTES;
use crate::random::Random;
use crate::record::{append, journal, record, Key, Record, CLOSE, CREATE, DELETE, NEW_NAME, OLD_NAME, ROOT, TIME};

const FILE: Key = Key(42, 3);

/// Every case, by its name.
pub fn all() -> Vec<(&'static str, Vec<u8>)> {
    vec![
        ("e", journal(&[e()])),
        ("gate", gate()),
        ("rename", rename()),
        ("empty", Vec::new()),
        ("zeros", vec![0; 1000]),
        ("rubbish", rubbish()),
        ("stopped", stopped()),
        ("numbers", numbers()),
        ("versions", versions()),
        ("lengths", lengths()),
        ("names", names()),
        ("control", control()),
        ("unknown", unknown()),
        ("unresolved", unresolved()),
        ("moves", moves()),
        ("long-path", long_path()),
        ("longest-path", longest_path()),
        ("cut", cut()),
        ("cut-header", cut_header()),
        ("full", full()),
        ("past", past()),
        ("straddling", straddling()),
    ]
}

/// The scope's sample record.
fn e() -> Record {
    record(FILE, ROOT, CREATE, "ab")
}

/// What the merge gate lists: E, the renamed file, both versions, a control character, a path too long to show, and words that are
/// no records between them.
fn gate() -> Vec<u8> {
    let mut bytes = journal(&[e()]);
    bytes.extend([0; 40]);
    append(&mut bytes, &rename());
    bytes.extend([48, 0, 0, 0, 9, 0, 0, 0]);
    append(&mut bytes, &journal(&[
        record(Key(100, 0), ROOT, CREATE, "folder").version_3(),
        record(Key(101, 7), Key(100, 0), CLOSE, "in\u{1F}it").usn(-1),
        record(Key(9, 1), Key(9, 1), CREATE, &"\u{2022}".repeat(86)),
        record(Key(102, 1), Key(9, 1), CREATE, "not shown"),
        record(Key(9, 1), ROOT, NEW_NAME, "short"),
        record(Key(102, 1), Key(9, 1), CLOSE, "shown"),
    ]));
    bytes
}

/// The scope's second example of a rewind.
fn rename() -> Vec<u8> {
    journal(&[record(FILE, ROOT, OLD_NAME, "a"), record(FILE, ROOT, NEW_NAME, "b")])
}

/// Random bytes, and a record behind them.
fn rubbish() -> Vec<u8> {
    let mut bytes = Vec::new();
    Random::of_case(1, 0, 0).append(&mut bytes, 4000);
    append(&mut bytes, &e().bytes());
    bytes
}

/// The scope's P5: a header whose length passes the end stops the scan before E.
fn stopped() -> Vec<u8> {
    let mut bytes = vec![96, 0, 0, 0, 2, 0, 0, 0];
    append(&mut bytes, &e().bytes());
    bytes
}

/// Signed numbers, times around the epoch and the largest one, every hexadecimal digit, the largest references.
fn numbers() -> Vec<u8> {
    let largest = Key((1 << 48) - 1, u16::MAX);
    let mut records = Vec::new();
    for usn in [0, 1, 9, 10, 99, 100, -1, -9, -10, i64::MAX, i64::MIN, i64::MIN + 1] {
        records.push(e().usn(usn));
    }
    for time in [
        0,
        -1,
        i64::MIN,
        116_444_735_999_999_999,
        116_444_736_000_000_000,
        116_444_736_000_000_001,
        TIME + 9_999_999,
        i64::MAX,
    ] {
        records.push(e().time(time));
    }
    for reason in [0, 1, 0x0123_4567, 0x89ab_cdef, 0xffff_ffff, CLOSE | DELETE] {
        records.push(record(FILE, ROOT, reason, "ab"));
    }
    records.push(record(largest, largest, CREATE, "ab"));
    records.push(record(Key(0, 0), Key(5, u16::MAX), CREATE, "ab"));
    journal(&records)
}

/// Versions 2 and 3 in one journal, a version 3 folder, and versions that are no records.
fn versions() -> Vec<u8> {
    let mut bytes = journal(&[
        record(Key(100, 0), ROOT, CREATE, "folder").version_3(),
        record(Key(101, 9), Key(100, 7), CREATE, "file").version_3(),
        record(Key(102, 1), Key(100, 0), CREATE, "version 2 in it"),
        record(Key(103, 1), Key(100, 7), CREATE, "version 2 elsewhere"),
        record(Key(100, 0), ROOT, NEW_NAME, "renamed").version_3(),
        record(Key(101, 0), Key(100, 0), CLOSE, "file").version_3(),
    ]);
    for version in [0, 1, 4, 5, 0x0302] {
        let mut other = e().bytes();
        other[4..6].copy_from_slice(&u16::to_le_bytes(version));
        append(&mut bytes, &other);
    }
    append(&mut bytes, &e().bytes());
    bytes
}

/// Length fields around those that are taken, each before a sound record.
fn lengths() -> Vec<u8> {
    let mut bytes = Vec::new();
    for version in [2, 3, 4] {
        for length in [
            0,
            1,
            8,
            48,
            55,
            56,
            57,
            59,
            60,
            61,
            63,
            64,
            65,
            75,
            76,
            77,
            80,
            65537,
            u32::MAX,
        ] {
            let mut other = e().bytes();
            other[0..4].copy_from_slice(&length.to_le_bytes());
            other[4] = version;
            append(&mut bytes, &other);
            append(&mut bytes, &[0; 8]);
            append(&mut bytes, &e().bytes());
        }
    }
    bytes
}

/// Names empty, odd, past the record, in its fixed part; of one to four bytes a character, and unpaired surrogates.
fn names() -> Vec<u8> {
    let mut bytes = journal(&[
        record(Key(1, 1), ROOT, CREATE, ""),
        record(Key(2, 1), Key(1, 1), CREATE, "in a folder without a name"),
        record(Key(3, 1), ROOT, CREATE, "\u{7f}\u{80}\u{7ff}\u{800}\u{ffff}\u{1f600}"),
        record(Key(4, 1), ROOT, CREATE, "").units(&[0xD800, 0x61, 0xDC00, 0xD83D, 0xDE00, 0xDE00, 0xD83D]),
        record(Key(6, 1), ROOT, CREATE, "with space ? \\ and UNKNOWN(1:1)"),
    ]);
    for (length, offset) in [
        (0, 60),
        (1, 60),
        (2, 60),
        (3, 60),
        (4, 60),
        (5, 60),
        (4, 62),
        (64, 0),
        (16, 8),
        (4, 61),
        (65535, 65535),
    ] {
        let mut other = e().bytes();
        other[56..58].copy_from_slice(&u16::to_le_bytes(length));
        other[58..60].copy_from_slice(&u16::to_le_bytes(offset));
        append(&mut bytes, &other);
    }
    bytes
}

/// Every control character, in a folder's name and in a file's.
fn control() -> Vec<u8> {
    let all: Vec<u16> = (0..0x22).collect();
    journal(&[
        record(Key(7, 1), ROOT, CREATE, "a\nb\tc\r"),
        record(FILE, Key(7, 1), CREATE, "").units(&all),
        record(Key(8, 1), Key(7, 1), CREATE, "\u{1}\u{1f}\u{20}\u{7f}\u{80}\u{9f}"),
    ])
}

/// Parents that no record tells of.
fn unknown() -> Vec<u8> {
    journal(&[
        record(FILE, Key(41, 2), CREATE, "ab"),
        record(Key(43, 1), FILE, CREATE, "in it"),
        record(Key(44, 1), Key(42, 4), CREATE, "another sequence"),
        record(Key(45, 1), Key((1 << 48) - 1, u16::MAX), CREATE, "largest"),
        record(Key(46, 1), Key(0, 0), CREATE, "zeros"),
        record(Key(47, 1), Key(41, 2), CREATE, "version 3").version_3(),
    ])
}

/// Folders that are in themselves, and a ladder of 260 folders under the root, most of them without a name.
fn unresolved() -> Vec<u8> {
    let mut records = vec![
        record(Key(9, 1), Key(9, 1), CREATE, "a"),
        record(Key(10, 1), Key(11, 1), CREATE, "b"),
        record(Key(11, 1), Key(10, 1), CREATE, "c"),
    ];
    let step = |i: u64| if i == 0 { ROOT } else { Key(1000 + i, 1) };
    for i in 1..=260 {
        let name = if i % 10 == 0 { "d" } else { "" };
        records.push(record(step(i), step(i - 1), CREATE, name));
    }
    for i in [255, 256, 257, 258] {
        records.push(record(Key(20 + i, 1), step(i), CREATE, "e"));
    }
    journal(&records)
}

/// Folders that are created, renamed, moved and deleted while files are in them, one entry used again.
fn moves() -> Vec<u8> {
    let (a, b, file) = (Key(30, 1), Key(31, 1), Key(32, 1));
    journal(&[
        record(file, a, CLOSE, "before"),
        record(a, ROOT, CREATE, "a"),
        record(b, a, CREATE, "b"),
        record(file, b, CREATE, "file"),
        record(a, ROOT, OLD_NAME, "a"),
        record(a, ROOT, NEW_NAME, "renamed"),
        record(file, b, CLOSE, "file"),
        record(file, b, OLD_NAME, "file"),
        record(file, ROOT, NEW_NAME, "moved"),
        record(b, a, DELETE, "b"),
        record(Key(31, 2), ROOT, CREATE, "again"),
        record(Key(33, 1), Key(31, 2), CREATE, "new"),
        record(Key(34, 1), b, OLD_NAME | NEW_NAME, "old"),
        record(a, ROOT, OLD_NAME | CREATE, "both"),
    ])
}

/// A folder in itself with the longest name: its path is far above 65536 bytes. What it says of its folder counts all the
/// same, and so do the records after it.
fn long_path() -> Vec<u8> {
    let long = "\u{2022}".repeat(255);
    journal(&[
        record(Key(9, 1), Key(9, 1), CREATE, &long),
        record(FILE, Key(9, 1), CREATE, "ab"),
        record(Key(43, 1), FILE, CREATE, "in it"),
        e(),
        record(Key(43, 1), FILE, CLOSE, "in it"),
        record(Key(9, 1), Key(9, 1), OLD_NAME, &long),
        record(Key(9, 1), ROOT, NEW_NAME, "short"),
        record(Key(44, 1), Key(9, 1), CREATE, "now shown"),
    ])
}

/// Paths of 65536 bytes, which are shown, and of 65537, which are not: 15 for the end, 257 times 254, a backslash and the
/// name.
fn longest_path() -> Vec<u8> {
    journal(&[
        record(Key(9, 1), Key(9, 1), CREATE, &"n".repeat(253)),
        record(Key(10, 1), Key(9, 1), CREATE, &"m".repeat(242)),
        record(Key(11, 1), Key(9, 1), CREATE, &"m".repeat(243)),
        e(),
    ])
}

/// A last record whose bytes are not all there.
fn cut() -> Vec<u8> {
    let mut bytes = journal(&[e(), record(Key(43, 1), ROOT, CREATE, "cut")]);
    bytes.truncate(64 + 65);
    bytes
}

/// The same with fewer than 8 bytes of it.
fn cut_header() -> Vec<u8> {
    let mut bytes = journal(&[e(), e()]);
    bytes.truncate(64 + 7);
    bytes
}

/// As many records as 65536 bytes take, 1024, each with a key of its own, and one more, which is not read.
fn full() -> Vec<u8> {
    let step = |i: u64| if i == 0 { ROOT } else { Key(5 + i, 1) };
    let records: Vec<Record> = (1..=1025)
        .map(|i| record(step(i), step(i / 16), CREATE, "ab").usn(64 * i as i64))
        .collect();
    let bytes = journal(&records);
    assert_eq!(bytes.len(), BYTES + 64);
    bytes
}

/// A record that ends with byte 65536, and one that begins there.
fn past() -> Vec<u8> {
    let mut bytes = vec![0; BYTES - 64];
    append(&mut bytes, &e().bytes());
    append(&mut bytes, &record(Key(43, 1), ROOT, CREATE, "no").bytes());
    bytes
}

/// A record across byte 65536, and one behind it.
fn straddling() -> Vec<u8> {
    let mut bytes = journal(&[e()]);
    bytes.resize(BYTES - 8, 0);
    append(&mut bytes, &record(Key(43, 1), ROOT, CREATE, "no").bytes());
    append(&mut bytes, &record(Key(44, 1), ROOT, CREATE, "no").bytes());
    bytes
}
