//! Random journals: few keys, so that these meet again, with names of every kind.

use crate::random::Random;
use crate::record::{append, Key, Record, CLOSE, CREATE, DELETE, NEW_NAME, OLD_NAME, TIME};

/// The units of names: letters, control characters, such as take two and three bytes, and surrogates.
const UNITS: [u16; 14] = [
    0x61, 0x62, 0x63, 0x20, 0x5C, 0x00, 0x0A, 0x1F, 0x7F, 0xE9, 0x2022, 0xFFFD, 0xD83D, 0xDE00,
];

const REASONS: [u32; 8] = [
    CREATE,
    DELETE,
    OLD_NAME,
    NEW_NAME,
    OLD_NAME | CLOSE,
    NEW_NAME | CLOSE,
    OLD_NAME | NEW_NAME,
    CLOSE,
];

/// What the records of one journal have in common.
struct Kind {
    pieces: usize,
    keys: usize,
    longest_name: usize,
    damage: bool,
}

/// The journal of a case.
pub fn random(seed: u64, case: u64) -> Vec<u8> {
    let random = &mut Random::of_case(seed, 1, case);
    let kind = match random.below(10) {
        0 => Kind {
            pieces: 1400,
            keys: 2000,
            longest_name: 6,
            damage: false,
        },
        1 => Kind {
            pieces: 60,
            keys: 4,
            longest_name: 255,
            damage: false,
        },
        2 => Kind {
            pieces: 300,
            keys: 40,
            longest_name: 120,
            damage: true,
        },
        3..=5 => Kind {
            pieces: 60,
            keys: 12,
            longest_name: 12,
            damage: true,
        },
        _ => Kind {
            pieces: 40,
            keys: 12,
            longest_name: 6,
            damage: false,
        },
    };
    let mut journal = Vec::new();
    for _ in 0..random.between(1, kind.pieces) {
        piece(random, &kind, &mut journal);
    }
    if random.one_in(4) {
        let end = random.below(journal.len() + 1);
        journal.truncate(end);
    }
    journal
}

/// A record, or now and then zero words or rubbish.
fn piece(random: &mut Random, kind: &Kind, journal: &mut Vec<u8>) {
    match random.below(20) {
        0 => {
            let words = random.below(6);
            journal.resize(journal.len() + 8 * words, 0);
        }
        1 if kind.damage => {
            let count = random.below(64);
            random.append(journal, count);
            append(journal, &[]);
        }
        _ => {
            let mut bytes = record(random, kind).bytes();
            if kind.damage && random.one_in(5) {
                damage(random, &mut bytes);
            }
            append(journal, &bytes);
        }
    }
}

fn record(random: &mut Random, kind: &Kind) -> Record {
    let length = random.below(kind.longest_name + 1);
    let unit = random.pick(&UNITS);
    let name = match random.one_in(3) {
        true => vec![unit; length],
        false => (0..length).map(|_| random.pick(&UNITS)).collect(),
    };
    Record {
        version: random.pick(&[2, 2, 2, 3]),
        file: key(random, kind),
        parent: key(random, kind),
        usn: edge(random, 1 << 20),
        time: edge(random, TIME),
        reason: random.pick(&REASONS),
        name,
    }
}

/// Often the root or a key near it; sequence 0 is a version 3 record's.
fn key(random: &mut Random, kind: &Kind) -> Key {
    let entry = match random.below(40) {
        0 => (1 << 48) - 1,
        1..=8 => 5,
        _ => 5 + random.below(kind.keys) as u64,
    };
    Key(entry, random.pick(&[0, 0, 1, 1, 2, u16::MAX]))
}

/// Mostly a number near this one, sometimes any.
fn edge(random: &mut Random, near: i64) -> i64 {
    match random.below(8) {
        0 => random.number() as i64,
        1 => random.pick(&[0, 1, -1, i64::MAX, i64::MIN]),
        _ => near + random.below(1 << 30) as i64,
    }
}

/// Another length, version or name's place, or any bytes changed.
fn damage(random: &mut Random, bytes: &mut [u8]) {
    match random.below(4) {
        0 => {
            let length = random.pick(&[0, 8, 48, 56, 59, 60, 61, 64, 76, 77, 200, 65536, 65537]);
            bytes[0..4].copy_from_slice(&u32::to_le_bytes(length));
        }
        1 => bytes[4] = random.below(6) as u8,
        2 => {
            let at = random.pick(&[56, 58]);
            bytes[at..at + 2].copy_from_slice(&u16::to_le_bytes(random.below(200) as u16));
        }
        _ => {
            for _ in 0..random.between(1, 4) {
                let at = random.below(bytes.len());
                bytes[at] = random.number() as u8;
            }
        }
    }
}
