//! Our window and the scope's side by side: every call is made on both, and all that it answers, changes and leaves
//! alone is compared.

use super::model::{Answer, Model};
use crate::difference::Finding;
use crate::library::{
    self, ABOVE_DOMAIN, ACCEPTED, ANSWER_WORDS, BUF_SIZE, FIELDS, NAME, NO_ROOM, READER_FIELDS, READER_WORDS,
};
use crate::library::{RECORD, TOO_MANY_BYTES};
use crate::records::answers::{against_text, against_words, listed_by_rust, named, words_of};
use crate::records::layout::Layout;
use crate::usn::UsnRecord;
use std::fmt::Debug;

/// How many words of window and of answer, and how many bytes of buffer, a call is lent.
#[derive(Debug, Clone, Copy)]
pub struct Lent {
    pub reader: usize,
    pub buffer: usize,
    pub out: usize,
}

/// What a call asks for.
pub const FULL: Lent = Lent {
    reader: READER_WORDS,
    buffer: BUF_SIZE,
    out: ANSWER_WORDS,
};

/// The words and bytes behind those that a call asks for: they may be lent too, and none may be written.
pub const BEHIND: usize = 8;

/// What a word holds before a call that may write it.
const UNTOUCHED: u64 = 0xa55a_c33c_9669_f00f;

/// The scope's answer, or its refusal.
pub type Answered = Result<Answer, u32>;

/// Both windows, with the buffer that ours is lent and what must stand in it.
pub struct Pair {
    model: Model,
    reader: [u64; READER_WORDS + BEHIND],
    out: [u64; ANSWER_WORDS + BEHIND],
    buffer: Vec<u8>,
    expected: Vec<u8>,
}

impl Pair {
    /// A window of no bytes, whose buffer holds bytes of its own.
    pub fn new() -> Self {
        let buffer: Vec<u8> = (0..BUF_SIZE + BEHIND).map(|at| (at % 251) as u8).collect();
        let mut pair = Self {
            model: Model::new(0),
            reader: [UNTOUCHED; READER_WORDS + BEHIND],
            out: [UNTOUCHED; ANSWER_WORDS + BEHIND],
            expected: buffer.clone(),
            buffer,
        };
        pair.set(Model::new(0).words());
        pair
    }

    /// A new window over a stream of `total` bytes, lent so many words; the buffer stays as it is.
    pub fn renew(&mut self, total: u64, lent: usize) -> Result<(), Finding> {
        let before = self.numbers();
        let number = library::usn_reader_new(total, &mut self.reader[..lent]);
        let answered = if lent < READER_WORDS {
            Err(NO_ROOM)
        } else {
            self.model = Model::new(total);
            Ok("a new window")
        };
        let what = against_number(number, &answered).or_else(|| self.against_reader(&answered, before));
        self.found(what, &answered, || {
            format!("usn_reader_new, total {total}, {lent} words lent")
        })
    }

    /// Gives both windows these numbers.
    pub fn set(&mut self, words: [u64; READER_WORDS]) {
        self.model = Model::of(words);
        self.reader[..READER_WORDS].copy_from_slice(&words);
    }

    /// The numbers of our window.
    pub fn numbers(&self) -> [u64; READER_WORDS] {
        *self.reader.first_chunk().expect("a window has these words")
    }

    /// The bytes that the scope's window wants.
    pub fn wanted(&self) -> usize {
        self.model.wanted() as usize
    }

    /// Puts bytes into the buffer from an offset on, without a call.
    pub fn place(&mut self, bytes: &[u8], at: usize) {
        self.buffer[at..at + bytes.len()].copy_from_slice(bytes);
        self.expected[at..at + bytes.len()].copy_from_slice(bytes);
    }

    pub fn next(&mut self, lent: Lent) -> Result<Answered, Finding> {
        let before = self.numbers();
        self.out.fill(UNTOUCHED);
        let (reader, out) = (&mut self.reader[..lent.reader], &mut self.out[..lent.out]);
        let number = library::usn_reader_next(reader, &self.buffer[..lent.buffer], out);
        let answered = match self.refusal(lent) {
            ACCEPTED => Ok(self.model.next(&self.expected)),
            refusal => Err(refusal),
        };
        let what = self.against(number, &answered, before);
        self.found(what, &answered, || shown_call("usn_reader_next", lent, before))?;
        Ok(answered)
    }

    pub fn give(&mut self, bytes: &[u8], lent: Lent) -> Result<Answered, Finding> {
        let before = self.numbers();
        self.out.fill(UNTOUCHED);
        let (reader, out) = (&mut self.reader[..lent.reader], &mut self.out[..lent.out]);
        let number = library::usn_reader_give(reader, &mut self.buffer[..lent.buffer], bytes, out);
        let held = self.model.held as usize;
        let answered = match self.refusal(lent) {
            ACCEPTED if bytes.len() > self.wanted() => Err(TOO_MANY_BYTES),
            ACCEPTED => {
                self.expected[held..held + bytes.len()].copy_from_slice(bytes);
                Ok(self.model.give(bytes.len() as u64))
            }
            refusal => Err(refusal),
        };
        let what = self.against(number, &answered, before);
        let what = what.or_else(|| match answered {
            Ok(_) if self.wanted() > 0 => self.against_buffer(held.saturating_sub(BEHIND), held + bytes.len() + BEHIND),
            _ => self.against_buffer(0, self.buffer.len()),
        });
        let call = || {
            format!(
                "{} and {} bytes",
                shown_call("usn_reader_give", lent, before),
                bytes.len()
            )
        };
        self.found(what, &answered, call)?;
        Ok(answered)
    }

    /// The scope's refusals in their order: too few words of a window come before them, and too few for the answer
    /// directly behind 1.
    fn refusal(&self, lent: Lent) -> u32 {
        match self.model.refusal(lent.buffer) {
            _ if lent.reader < READER_WORDS => NO_ROOM,
            ABOVE_DOMAIN => ABOVE_DOMAIN,
            _ if lent.out < ANSWER_WORDS => NO_ROOM,
            refusal => refusal,
        }
    }

    /// The first thing in which our call is not as the scope answers.
    fn against(&self, number: u32, answered: &Answered, before: [u64; READER_WORDS]) -> Option<String> {
        against_number(number, answered)
            .or_else(|| self.against_reader(answered, before))
            .or_else(|| self.against_out(answered))
    }

    /// The first of our window's words that is not as the scope's window, or not as before where the call is refused.
    fn against_reader<T>(&self, answered: &Result<T, u32>, before: [u64; READER_WORDS]) -> Option<String> {
        let numbers = match answered {
            Ok(_) => self.model.words(),
            Err(_) => before,
        };
        let expected = |at: usize| numbers.get(at).copied().unwrap_or(UNTOUCHED);
        let at = (0..self.reader.len()).find(|&at| self.reader[at] != expected(at))?;
        let (name, ours) = (READER_FIELDS.get(at).unwrap_or(&"a word behind"), self.reader[at]);
        Some(format!("the window's {name} is {ours}, not {}", expected(at)))
    }

    /// The first word of our answer that is not as expected. A record is what the Rust's parser finds at its place in
    /// the buffer.
    fn against_out(&self, answered: &Answered) -> Option<String> {
        let first = answered.map(|answer| answer.words()).unwrap_or([UNTOUCHED; 3]);
        if let Some(at) = (0..3).find(|&at| self.out[at] != first[at]) {
            return Some(format!("word {at} is {}, not {}", self.out[at], first[at]));
        }
        let mut end = 3;
        if let Ok(Answer::Record(place)) = answered {
            let at = place.offset - self.model.start as usize;
            let what = match listed_by_rust(&self.expected, at) {
                Err(why) => Some(format!("it refuses the record: {why}")),
                Ok((parser, part, record)) => self.against_record(&record, parser.layout, part, at),
            };
            if let Some(what) = what {
                return Some(format!("by the Rust's parser, {what}"));
            }
            end = ANSWER_WORDS;
        }
        let at = (end..self.out.len()).find(|&at| self.out[at] != UNTOUCHED)?;
        Some(format!("word {at} is written"))
    }

    /// The first thing in which our answer is not this record, which was read from `part` and lies in the buffer at
    /// `at`.
    fn against_record(&self, record: &UsnRecord, layout: &Layout, part: &[u8], at: usize) -> Option<String> {
        let mut expected = words_of(record, layout, part);
        if expected[NAME + 1] > 0 {
            expected[NAME] += at as u64;
        }
        let words = &self.out[3..ANSWER_WORDS];
        against_text(words, &record.filename, &self.buffer).or_else(|| against_words(words, &expected))
    }

    /// Holds our answer to the record that the Rust's reader gave, which was read from `part` at `offset` of the
    /// stream.
    pub fn compare_record(
        &self,
        record: &UsnRecord,
        layout: &Layout,
        part: &[u8],
        offset: usize,
    ) -> Result<(), Finding> {
        let Some(what) = self.against_record(record, layout, part, offset - self.model.start as usize) else {
            return Ok(());
        };
        Err(Finding {
            call: format!("usn_reader_next, the record at {offset} of the stream"),
            what,
            rust: format!("{record:?}"),
            ours: self.shown(),
        })
    }

    /// Where our buffer is not as it must be, from `first` up to `end`.
    fn against_buffer(&self, first: usize, end: usize) -> Option<String> {
        let end = end.min(self.buffer.len());
        if self.buffer[first..end] == self.expected[first..end] {
            return None;
        }
        let at = (first..end).find(|&at| self.buffer[at] != self.expected[at])?;
        let (ours, expected) = (self.buffer[at], self.expected[at]);
        Some(format!("byte {at} of the buffer is {ours}, not {expected}"))
    }

    fn found(&self, what: Option<String>, answered: &impl Debug, call: impl FnOnce() -> String) -> Result<(), Finding> {
        let Some(what) = what else { return Ok(()) };
        let window = named(&READER_FIELDS, &self.model.words());
        Err(Finding {
            call: call(),
            what,
            rust: format!("no such call; the scope: {answered:?}, window {window}"),
            ours: self.shown(),
        })
    }

    /// Our window and our last answer.
    fn shown(&self) -> String {
        let window = named(&READER_FIELDS, &self.reader);
        let [kind, from, count, record @ ..] = &self.out;
        let record = match *kind {
            RECORD => named(&FIELDS, record),
            _ => String::new(),
        };
        format!("answer {kind}, {from}, {count} {record}, window {window}")
    }
}

fn against_number<T>(number: u32, answered: &Result<T, u32>) -> Option<String> {
    let expected = answered.as_ref().err().copied().unwrap_or(ACCEPTED);
    (number != expected).then(|| format!("the answer is {number}, not {expected}"))
}

fn shown_call(call: &str, lent: Lent, before: [u64; READER_WORDS]) -> String {
    format!(
        "{call}, window {}, lent {} and {} words and {} bytes",
        named(&READER_FIELDS, &before),
        lent.reader,
        lent.out,
        lent.buffer
    )
}
