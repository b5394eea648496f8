//! A window by the scope: its numbers, its refusals, and what each call answers and changes. It is written from the
//! document, apart from our library; it reads the buffer that our library is lent.

use crate::journals::walks::{layout_at, length_at, Place};
use crate::library::{ABOVE_DOMAIN, ACCEPTED, BAD_BUFFER, BAD_NUMBERS, BUF_SIZE, READER_WORDS, STREAM_DOMAIN};
use crate::library::{END, RECORD, WANTS};
use crate::records::layout::LARGEST;

/// The numbers of a window: the buffer holds the stream's bytes from `start` on, `held` of them; records are read from
/// `position` on, up to `end`.
#[derive(Debug, Clone, Copy, PartialEq, Eq)]
pub struct Model {
    pub start: u64,
    pub position: u64,
    pub end: u64,
    pub held: u64,
    pub total: u64,
    pub ended: bool,
}

/// What a call answers that is not refused. A record's offset counts from the start of the stream.
#[derive(Debug, Clone, Copy, PartialEq, Eq)]
pub enum Answer {
    End,
    Wants { from: u64, bytes: u64 },
    Record(Place),
}

impl Answer {
    /// The first words of the answer.
    pub fn words(&self) -> [u64; 3] {
        match *self {
            Answer::End => [END, 0, 0],
            Answer::Wants { from, bytes } => [WANTS, from, bytes],
            Answer::Record(place) => [RECORD, place.offset as u64, place.length as u64],
        }
    }
}

impl Model {
    /// Before the first refill.
    pub fn new(total: u64) -> Self {
        Self::of([0, 0, 0, 0, total, 0])
    }

    /// The window with these numbers; it has ended where the last is not 0.
    pub fn of(words: [u64; READER_WORDS]) -> Self {
        let [start, position, end, held, total, ended] = words;
        Self {
            start,
            position,
            end,
            held,
            total,
            ended: ended != 0,
        }
    }

    pub fn words(&self) -> [u64; READER_WORDS] {
        let ended = u64::from(self.ended);
        [self.start, self.position, self.end, self.held, self.total, ended]
    }

    /// The refusal of a call with a buffer of this length, the tests in their order; 0 where there is none. The numbers
    /// may be any, so that their sums have more than 64 bits.
    pub fn refusal(&self, buffer_length: usize) -> u32 {
        let [start, position, end, held, total, _] = self.words().map(u128::from);
        if self.total > STREAM_DOMAIN {
            return ABOVE_DOMAIN;
        }
        if buffer_length != BUF_SIZE {
            return BAD_BUFFER;
        }
        let bad = start % 8 != 0
            || position % 8 != 0
            || position < start
            || position > end.next_multiple_of(8)
            || (end != total.min(start + BUF_SIZE as u128) && end != 0)
            || start + held > end;
        match bad {
            true => BAD_NUMBERS,
            false => ACCEPTED,
        }
    }

    /// The bytes that are wanted; none after an end.
    pub fn wanted(&self) -> u64 {
        if self.ended {
            0
        } else {
            self.end - self.start - self.held
        }
    }

    fn asking(&self) -> Answer {
        Answer::Wants {
            from: self.start + self.held,
            bytes: self.wanted(),
        }
    }

    /// The next answer of a window that is not refused.
    pub fn next(&mut self, buffer: &[u8]) -> Answer {
        if self.ended {
            return Answer::End;
        }
        if self.wanted() > 0 {
            return self.asking();
        }
        while self.position + 8 <= self.end {
            let at = (self.position - self.start) as usize;
            let length = length_at(buffer, at);
            if !(8..=LARGEST).contains(&length) {
                self.position += 8;
                continue;
            }
            if self.position + length as u64 > self.end {
                return self.past_end(length as u64);
            }
            let offset = self.position as usize;
            self.position += length.next_multiple_of(8) as u64;
            if layout_at(buffer, at).is_some_and(|layout| length >= layout.fixed) {
                return Answer::Record(Place { offset, length });
            }
        }
        self.refill_or_end()
    }

    /// The end where the window's end is the stream's, else a refill.
    fn refill_or_end(&mut self) -> Answer {
        if self.end == self.total {
            self.ended = true;
            return Answer::End;
        }
        self.start = self.position;
        self.end = self.total.min(self.start + BUF_SIZE as u64);
        self.held = 0;
        self.asking()
    }

    /// A record of this length passes the window's end: a refill, and a move by 8 where it still does.
    fn past_end(&mut self, length: u64) -> Answer {
        let answer = self.refill_or_end();
        if !self.ended && self.position + length > self.end {
            self.position += 8;
        }
        answer
    }

    /// The answer to `count` bytes given, no more than are wanted, to a window that is not refused.
    pub fn give(&mut self, count: u64) -> Answer {
        if count == 0 && self.wanted() > 0 {
            self.ended = true;
            return Answer::End;
        }
        self.held += count;
        self.asking()
    }
}
