//! The journal that is read: runs of records with zero-filled gaps between them, half of it zeros.

use crate::random::Random;

/// The bytes of a run of records, from the shortest to the longest; the gap behind it is as long.
const RUN: [usize; 2] = [4096, 1 << 20];

/// The fewest units of a name, where the longest has as many.
const SHORTEST_NAME: usize = 4;

/// One in so many records is of version 3.
const VERSION_3: usize = 16;

/// The first time of a record, in 2020; each is a little later than the one before it.
const TIME: u64 = 132_223_104_000_000_000;

/// The reasons that follow one another as files come and go: created, extended, closed, renamed, deleted.
const REASONS: [u32; 6] = [0x100, 0x102, 0x8000_0102, 0x1000, 0x2000, 0x8000_0200];

/// A journal of at least so many bytes, by its seed and the units of its longest name alone.
pub fn generated(seed: u64, size: usize, longest_name: usize) -> Vec<u8> {
    let mut random = Random::of_case(seed, 0, 0);
    let mut bytes = Vec::with_capacity(size + 4 * RUN[1]);
    let mut time = TIME;
    while bytes.len() < size {
        let start = bytes.len();
        let end = start + random.between(RUN[0], RUN[1]);
        while bytes.len() < end {
            time += random.below(1_000_000) as u64;
            let units = random.between(SHORTEST_NAME.min(longest_name), longest_name);
            record(&mut random, time, units, &mut bytes);
        }
        bytes.resize(2 * bytes.len() - start, 0);
    }
    bytes
}

/// Appends a record, with its name of so many units behind the fixed part and up to the next word.
fn record(random: &mut Random, time: u64, units: usize, bytes: &mut Vec<u8>) {
    let start = bytes.len();
    let version: u16 = if random.one_in(VERSION_3) { 3 } else { 2 };
    let reference = if version == 3 { 16 } else { 8 };
    let fixed = 44 + 2 * reference;
    let length = (fixed + 2 * units).next_multiple_of(8);
    bytes.extend((length as u32).to_le_bytes());
    bytes.extend(version.to_le_bytes());
    bytes.extend([0; 2]);
    for _ in 0..2 {
        let entry = random.below(1 << 22) as u64 | (random.between(1, 9) as u64) << 48;
        bytes.extend_from_slice(&u128::from(entry).to_le_bytes()[..reference]);
    }
    bytes.extend((start as u64).to_le_bytes());
    bytes.extend(time.to_le_bytes());
    for word in [random.pick(&REASONS), 0, random.below(2000) as u32, 0x20] {
        bytes.extend(word.to_le_bytes());
    }
    bytes.extend((2 * units as u16).to_le_bytes());
    bytes.extend((fixed as u16).to_le_bytes());
    for _ in 0..units {
        bytes.extend([random.between(0x61, 0x7a) as u8, 0]);
    }
    bytes.resize(start + length, 0);
}

/// How many of the journal's words of 8 bytes are zero.
pub fn zero_words(journal: &[u8]) -> usize {
    journal.chunks_exact(8).filter(|word| *word == [0; 8]).count()
}
