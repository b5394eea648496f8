//! One call held against the Rust and against the scope: the number answered, the words written and those left alone.

use super::layout::{number, Layout, FILE_REFERENCE, LARGEST, MAJOR_VERSION, MINOR_VERSION, V2, V3};
use crate::difference::Finding;
use crate::library::{self, ABOVE_DOMAIN, ACCEPTED, DOMAIN, FIELDS, NAME, NO_ROOM, WORDS};
use crate::library::{LENGTH_OUTSIDE, LENGTH_PAST_SLICE, NOT_LISTED, TOO_SHORT};
use crate::usn::{parse_usn_record_v2, parse_usn_record_v3, UsnRecord};

/// A record parser: the Rust's and ours, and the layout that both read.
pub struct Parser {
    pub call: &'static str,
    pub layout: &'static Layout,
    pub rust: fn(&[u8]) -> crate::error::Result<UsnRecord>,
    pub ours: fn(&[u8], &mut [u64]) -> u32,
}

pub static PARSERS: [Parser; 2] = [
    Parser {
        call: "usn_parse_record_v2",
        layout: &V2,
        rust: parse_usn_record_v2,
        ours: library::usn_parse_record_v2,
    },
    Parser {
        call: "usn_parse_record_v3",
        layout: &V3,
        rust: parse_usn_record_v3,
        ours: library::usn_parse_record_v3,
    },
];

/// The most words that are lent. An accepted call writes fewer.
pub const ROOM: usize = 32;

/// The numbers of words lent where every one is tried: none, one too few, just enough, one more, and all.
pub const LENT: [usize; 5] = [0, WORDS - 1, WORDS, WORDS + 1, ROOM];

/// What the words hold before a call, each another value.
const UNTOUCHED: [u64; ROOM] = {
    let mut words = [0; ROOM];
    let mut i = 0;
    while i < ROOM {
        words[i] = 0xa55a_c33c_9669_0000 + i as u64;
        i += 1;
    }
    words
};

/// What a call answered, with all the words, those lent and those behind them.
struct Answer {
    number: u32,
    words: [u64; ROOM],
}

impl Answer {
    /// The answer of a call that is lent the first `lent` words.
    fn of(lent: usize, call: impl FnOnce(&mut [u64]) -> u32) -> Self {
        let mut words = UNTOUCHED;
        let number = call(&mut words[..lent]);
        Self { number, words }
    }

    /// The first thing in which the answer is not the refusal `expected`.
    fn against_refusal(&self, expected: u32) -> Option<String> {
        self.against_number(expected).or_else(|| self.written_from(0))
    }

    /// The first thing in which the answer is not the Rust's record, which was read from `part`.
    fn against_record(&self, record: &UsnRecord, layout: &Layout, part: &[u8]) -> Option<String> {
        self.against_number(ACCEPTED)
            .or_else(|| self.written_from(WORDS))
            .or_else(|| words_against_record(&self.words[..WORDS], record, layout, part))
    }

    fn against_number(&self, expected: u32) -> Option<String> {
        (self.number != expected).then(|| format!("the answer is {}, not {expected}", self.number))
    }

    /// A word from `first` on that the call should have left alone.
    fn written_from(&self, first: usize) -> Option<String> {
        let at = (first..ROOM).find(|&at| self.words[at] != UNTOUCHED[at])?;
        Some(format!("word {at} is written"))
    }

    fn shown(&self) -> String {
        if self.number != ACCEPTED {
            return format!("refusal {}", self.number);
        }
        named(&FIELDS, &self.words)
    }
}

/// The first thing in which the words of a record are not those of the Rust's, which was read from `part`.
fn words_against_record(words: &[u64], record: &UsnRecord, layout: &Layout, part: &[u8]) -> Option<String> {
    against_text(words, &record.filename, part).or_else(|| against_words(words, &words_of(record, layout, part)))
}

/// The first thing in which the name's place in `words`, counted from the start of `bytes`, is not that of the name.
pub fn against_text(words: &[u64], filename: &str, bytes: &[u8]) -> Option<String> {
    match text_at(bytes, words[NAME], words[NAME + 1]) {
        None => Some("the name's place lies outside the slice or is odd".to_string()),
        Some(text) => (text != filename).then(|| format!("the name reads {text:?}")),
    }
}

/// The first of a record's words that is not as expected.
pub fn against_words(words: &[u64], expected: &[u64; WORDS]) -> Option<String> {
    let at = (0..WORDS).find(|&at| words[at] != expected[at])?;
    let (ours, expected) = (words[at], expected[at]);
    Some(format!("{} is {ours}, not {expected}", FIELDS[at]))
}

/// Words with their names, as far as both go.
pub fn named(names: &[&str], words: &[u64]) -> String {
    let shown: Vec<String> = names
        .iter()
        .zip(words)
        .map(|(name, word)| format!("{name} {word}"))
        .collect();
    shown.join(", ")
}

/// Calls a parser on `data`, lending `lent` words.
pub fn compare_parser(parser: &Parser, data: &[u8], lent: usize) -> Result<(), Finding> {
    let rust = (parser.rust)(data);
    let ours = Answer::of(lent, |words| (parser.ours)(data, words));
    let what = match (refusal(parser.layout, data), &rust) {
        // The Rust has no such refusal, so that its answer says nothing here.
        (ABOVE_DOMAIN, _) => ours.against_refusal(ABOVE_DOMAIN),
        // Nor has it one for too few words.
        _ if lent < WORDS => ours.against_refusal(NO_ROOM),
        (ACCEPTED, Ok(record)) => ours.against_record(record, parser.layout, data),
        (ACCEPTED, Err(_)) => Some("the scope accepts what the Rust refuses".to_string()),
        (expected, Ok(_)) => Some(format!("the scope refuses with {expected} what the Rust accepts")),
        (expected, Err(_)) => ours.against_refusal(expected),
    };
    finding(what, rust.as_ref(), &ours, || {
        format!("{}, {lent} words lent", parser.call)
    })
}

/// Calls for the record at `offset` of an extract, lending `lent` words.
pub fn compare_listed(data: &[u8], offset: usize, lent: usize) -> Result<(), Finding> {
    let rust = listed_by_rust(data, offset);
    let ours = Answer::of(lent, |words| library::usn_listed_record(data, offset, words));
    let what = match &rust {
        _ if lent < WORDS => ours.against_refusal(NO_ROOM),
        Err(_) => ours.against_refusal(NOT_LISTED),
        Ok((parser, part, record)) => ours.against_record(record, parser.layout, part),
    };
    let rust = rust.as_ref().map(|(_, _, record)| record);
    finding(what, rust, &ours, || {
        format!("usn_listed_record, offset {offset}, {lent} words lent")
    })
}

/// Holds a record that a reader of the Rust gave to its place in an extract: the Rust's parser finds the same record
/// there, and so does our call for the record at that offset.
pub fn compare_given(data: &[u8], offset: usize, given: &UsnRecord) -> Result<(), Finding> {
    let ours = Answer::of(WORDS, |words| library::usn_listed_record(data, offset, words));
    let what = match listed_by_rust(data, offset) {
        Err(why) => Some(format!("the Rust's parser refuses the record: {why}")),
        Ok((parser, part, record)) => {
            let words = words_of(&record, parser.layout, part);
            words_against_record(&words, given, parser.layout, part)
                .map(|what| format!("by the Rust's parser, {what}"))
                .or_else(|| ours.against_record(given, parser.layout, part))
        }
    };
    finding(what, Ok::<_, &String>(given), &ours, || {
        format!("usn_listed_record, offset {offset}, of a record that the Rust gave")
    })
}

fn finding<E: std::fmt::Display>(
    what: Option<String>,
    rust: Result<&UsnRecord, &E>,
    ours: &Answer,
    call: impl FnOnce() -> String,
) -> Result<(), Finding> {
    let Some(what) = what else { return Ok(()) };
    let rust = match rust {
        Ok(record) => format!("{record:?}"),
        Err(error) => format!("error: {error}"),
    };
    Err(Finding {
        call: call(),
        what,
        rust,
        ours: ours.shown(),
    })
}

/// The scope's answer to a parser's slice, its tests in their order; it has none of the words that are lent.
fn refusal(layout: &Layout, data: &[u8]) -> u32 {
    if data.len() > DOMAIN {
        return ABOVE_DOMAIN;
    }
    if data.len() < layout.fixed {
        return TOO_SHORT;
    }
    let length = number(data, 0, 4) as usize;
    if length < layout.fixed || length > LARGEST {
        return LENGTH_OUTSIDE;
    }
    if layout.major_version == 2 && length > data.len() {
        return LENGTH_PAST_SLICE;
    }
    ACCEPTED
}

/// What the Rust's parsers make of a listed record: the one for its version, handed the part of the extract that begins
/// at `offset` and is as long as the length field says. The record comes with that parser and that part.
pub fn listed_by_rust(data: &[u8], offset: usize) -> Result<(&'static Parser, &[u8], UsnRecord), String> {
    let rest = data.get(offset..).unwrap_or_default();
    if rest.len() < 8 {
        return Err("fewer than 8 bytes left".to_string());
    }
    let length = number(rest, 0, 4) as usize;
    let part = rest.get(..length).ok_or("the length passes the end")?;
    let version = number(rest, MAJOR_VERSION, 2);
    let parser = PARSERS
        .iter()
        .find(|parser| u64::from(parser.layout.major_version) == version);
    let parser = parser.ok_or_else(|| format!("version {version}"))?;
    let record = (parser.rust)(part).map_err(|error| error.to_string())?;
    Ok((parser, part, record))
}

/// The words of the Rust's record. What it lacks, and the name's place, is read from the bytes.
pub fn words_of(record: &UsnRecord, layout: &Layout, part: &[u8]) -> [u64; WORDS] {
    let (name_offset, name_length) = name_place(layout, part);
    let high = |reference: usize| match layout.reference {
        16 => number(part, reference + 8, 8),
        _ => 0,
    };
    [
        record.mft_entry,
        record.mft_sequence.into(),
        record.parent_mft_entry,
        record.parent_mft_sequence.into(),
        record.usn as u64,
        record.timestamp.timestamp() as u64,
        record.timestamp.timestamp_subsec_nanos().into(),
        record.reason.bits().into(),
        record.file_attributes.bits().into(),
        record.source_info.into(),
        record.security_id.into(),
        record.major_version.into(),
        name_offset,
        name_length,
        number(part, 0, 4),
        number(part, MINOR_VERSION, 2),
        number(part, layout.filetime, 8),
        high(FILE_REFERENCE),
        high(layout.parent_reference),
    ]
}

/// The name's place by the scope: empty if its length is below 2 or it ends past the slice, and of an even length.
fn name_place(layout: &Layout, part: &[u8]) -> (u64, u64) {
    let length = number(part, layout.name_length, 2);
    let offset = number(part, layout.name_offset, 2);
    if length < 2 || offset + length > part.len() as u64 {
        (0, 0)
    } else {
        (offset, length - length % 2)
    }
}

/// The text of the UTF-16 units at a place, if it lies inside and is of an even length.
fn text_at(part: &[u8], offset: u64, length: u64) -> Option<String> {
    let start = usize::try_from(offset).ok()?;
    let end = start.checked_add(usize::try_from(length).ok()?)?;
    let bytes = part.get(start..end).filter(|bytes| bytes.len() % 2 == 0)?;
    let units: Vec<u16> = bytes
        .chunks_exact(2)
        .map(|unit| u16::from_le_bytes([unit[0], unit[1]]))
        .collect();
    Some(String::from_utf16_lossy(&units))
}
