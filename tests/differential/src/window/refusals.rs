//! Calls on windows of any numbers, lent any lengths: which are refused and by which number, that a refused call
//! changes nothing, and what the others answer.

use super::calls::{Lent, Pair, BEHIND, FULL};
use crate::difference::Finding;
use crate::library::{ANSWER_WORDS, BUF_SIZE, READER_WORDS, STREAM_DOMAIN};
use crate::records::edges::example;
use crate::records::layout::V2;

/// Totals of a stream: within one window, at its end, over some windows, and around the domain's end.
const TOTALS: [u64; 10] = [
    0,
    7,
    8,
    100,
    65536,
    65537,
    200_000,
    STREAM_DOMAIN,
    STREAM_DOMAIN + 1,
    u64::MAX,
];

/// Lengths other than a call asks for, the longer ones among them accepted for words and refused for the buffer.
const OTHER: [Lent; 11] = [
    Lent { reader: 0, ..FULL },
    Lent {
        reader: READER_WORDS - 1,
        ..FULL
    },
    Lent {
        reader: READER_WORDS + BEHIND,
        out: ANSWER_WORDS + BEHIND,
        ..FULL
    },
    Lent { out: 0, ..FULL },
    Lent { out: 3, ..FULL },
    Lent {
        out: ANSWER_WORDS - 1,
        ..FULL
    },
    Lent {
        out: ANSWER_WORDS - 1,
        buffer: 0,
        ..FULL
    },
    Lent {
        reader: READER_WORDS - 1,
        out: 0,
        ..FULL
    },
    Lent { buffer: 0, ..FULL },
    Lent {
        buffer: BUF_SIZE - 1,
        ..FULL
    },
    Lent {
        buffer: BUF_SIZE + 1,
        ..FULL
    },
];

/// All of them; how many windows they are.
pub fn run() -> Result<u64, Finding> {
    let mut pair = Pair::new();
    let records = example(&V2).repeat(BUF_SIZE / 64);
    let mut windows = 0;
    for total in TOTALS {
        for lent in [READER_WORDS + BEHIND, READER_WORDS - 1, 0, READER_WORDS] {
            pair.renew(total, lent)?;
        }
        for numbers in numbers(total) {
            pair.place(&records, 0);
            calls(&mut pair, numbers)?;
            windows += 1;
        }
    }
    Ok(windows)
}

/// Numbers of a window over `total` bytes, and numbers that differ from a window's by a little or by much.
fn numbers(total: u64) -> Vec<[u64; READER_WORDS]> {
    const SIZE: u64 = BUF_SIZE as u64;
    let mut all = Vec::new();
    for start in [0, 4, 8, total & !7, total.saturating_sub(SIZE) & !7, u64::MAX - 7] {
        let end_of_window = total.min(start.saturating_add(SIZE));
        for end in [
            0,
            end_of_window,
            end_of_window.saturating_sub(1),
            total,
            total.saturating_add(8),
        ] {
            let last = end.saturating_add(7) & !7;
            for position in [
                start,
                start.wrapping_add(8),
                start.wrapping_sub(8),
                last,
                last.wrapping_add(8),
                12,
            ] {
                let room = end.wrapping_sub(start);
                for held in [0, 1, room, room.wrapping_add(1), start.wrapping_neg()] {
                    for ended in [0, 1, 7] {
                        all.push([start, position, end, held, total, ended]);
                    }
                }
            }
        }
    }
    all.sort_unstable();
    all.dedup();
    all
}

/// Each call on a window of these numbers, with what it asks for and with other lengths.
fn calls(pair: &mut Pair, numbers: [u64; READER_WORDS]) -> Result<(), Finding> {
    let mut call = |lent, given: Option<usize>| {
        pair.set(numbers);
        match given {
            None => pair.next(lent).map(drop),
            Some(count) => pair.give(&[0x5a; BUF_SIZE + 1][..count], lent).map(drop),
        }
    };
    let [start, _, end, held, ..] = numbers;
    let wanted = end.wrapping_sub(start).wrapping_sub(held).min(BUF_SIZE as u64) as usize;
    call(FULL, None)?;
    for count in [0, 1, wanted, wanted + 1] {
        call(FULL, Some(count))?;
    }
    if numbers[READER_WORDS - 1] == 1 {
        return Ok(());
    }
    for lent in OTHER {
        call(lent, None)?;
        call(lent, Some(1))?;
    }
    Ok(())
}
