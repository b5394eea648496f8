//! A whole journal through our window, beside the Rust's reader over the same bytes with full reads.

use super::calls::{Answered, Pair, FULL};
use super::model::Answer;
use crate::difference::Finding;
use crate::journals::walks::{self, layout_at, Place};
use crate::library::{READER_WORDS, TOO_MANY_BYTES};
use crate::records::answers::compare_given;
use crate::usn::reader::UsnJournalReader;
use crate::usn::UsnRecord;
use std::io::{Cursor, Read, Seek};

/// A journal with the records that the Rust's reader gives and the places that the scope's walk gives.
pub struct Stream<'a> {
    pub bytes: &'a [u8],
    pub records: Vec<UsnRecord>,
    pub places: Vec<Place>,
}

/// Who delivers the bytes of a journal.
pub trait Caller {
    /// How many bytes are given next, of those wanted. None end the reading.
    fn size(&mut self, wanted: usize) -> usize;

    /// Other calls between those that the reading needs. They leave the window as it is.
    fn between(&mut self, _pair: &mut Pair) -> Result<(), Finding> {
        Ok(())
    }
}

/// Delivers so many bytes at a time, or all that are wanted if they are fewer.
pub struct Steady(pub usize);

impl Caller for Steady {
    fn size(&mut self, wanted: usize) -> usize {
        self.0.min(wanted)
    }
}

/// The records that the Rust's reader gives of a source.
pub fn records_of(source: impl Read + Seek) -> Vec<UsnRecord> {
    let reader = UsnJournalReader::new(source).expect("the source has no errors");
    reader.map(|record| record.expect("the source has no errors")).collect()
}

impl<'a> Stream<'a> {
    /// The journal, with the Rust's records held to the places.
    pub fn of(bytes: &'a [u8]) -> Result<Self, Finding> {
        let stream = Self {
            bytes,
            records: records_of(Cursor::new(bytes)),
            places: walks::window(bytes),
        };
        stream.same_count("the scope gives", stream.places.len())?;
        for (place, record) in stream.places.iter().zip(&stream.records) {
            compare_given(bytes, place.offset, record)?;
        }
        Ok(stream)
    }

    /// Reads the journal through our window, with a caller that delivers it.
    pub fn read(&self, pair: &mut Pair, caller: &mut impl Caller) -> Result<(), Finding> {
        pair.renew(self.bytes.len() as u64, READER_WORDS)?;
        let mut given = 0;
        loop {
            caller.between(pair)?;
            match pair.next(FULL)? {
                Ok(Answer::Record(place)) => {
                    self.compare(pair, given, place)?;
                    given += 1;
                }
                Ok(Answer::Wants { from, .. }) => {
                    if self.deliver(pair, from as usize, caller)? {
                        return after_end(pair);
                    }
                }
                Ok(Answer::End) => break,
                Err(refusal) => return Err(unexpected("a record, the bytes wanted or the end", &Err(refusal))),
            }
        }
        self.same_count("our window gives", given)?;
        after_end(pair)
    }

    /// Gives what is wanted, from an offset on; says whether the caller has ended the reading.
    fn deliver(&self, pair: &mut Pair, mut from: usize, caller: &mut impl Caller) -> Result<bool, Finding> {
        while pair.wanted() > 0 {
            let size = caller.size(pair.wanted());
            let answered = pair.give(&self.bytes[from..from + size], FULL)?;
            if size == 0 {
                expect(Answer::End, answered)?;
                return Ok(true);
            }
            from += size;
            caller.between(pair)?;
        }
        Ok(false)
    }

    /// Holds the record that our window has just given to the Rust's, by their number.
    fn compare(&self, pair: &Pair, given: usize, place: Place) -> Result<(), Finding> {
        let Some(expected) = self.places.get(given) else {
            return self.same_count("our window gives more than", given);
        };
        if *expected != place {
            return Err(Finding {
                call: "usn_reader_next".to_string(),
                what: format!("record {given} is at another place of the stream"),
                rust: format!("no places; the scope: {expected:?}"),
                ours: format!("{place:?}"),
            });
        }
        let layout = layout_at(self.bytes, place.offset).expect("the walk takes versions 2 and 3 alone");
        let part = &self.bytes[place.offset..place.offset + place.length];
        pair.compare_record(&self.records[given], layout, part, place.offset)
    }

    fn same_count(&self, who: &str, count: usize) -> Result<(), Finding> {
        if count == self.records.len() {
            return Ok(());
        }
        Err(Finding {
            call: "all of usn_reader_next".to_string(),
            what: format!("{who} {count} records"),
            rust: format!("{} records", self.records.len()),
            ours: format!("{count} records; the scope: places {:?}", self.places),
        })
    }
}

/// The answers after an end: the end again, nothing wanted, and too many bytes, however few. None of them changes the
/// window.
fn after_end(pair: &mut Pair) -> Result<(), Finding> {
    let numbers = pair.numbers();
    expect(Answer::End, pair.next(FULL)?)?;
    let [start, _, _, held, ..] = numbers;
    let nothing = Answer::Wants {
        from: start + held,
        bytes: 0,
    };
    expect(nothing, pair.give(&[], FULL)?)?;
    let answered = pair.give(&[1], FULL)?;
    if answered != Err(TOO_MANY_BYTES) {
        return Err(unexpected("refusal 10", &answered));
    }
    expect(Answer::End, pair.next(FULL)?)?;
    match pair.numbers() == numbers {
        true => Ok(()),
        false => Err(unexpected("the same window", &Ok(Answer::End))),
    }
}

fn expect(expected: Answer, answered: Answered) -> Result<(), Finding> {
    match answered == Ok(expected) {
        true => Ok(()),
        false => Err(unexpected(&format!("{expected:?}"), &answered)),
    }
}

/// An answer in which our window and the scope's agree, where another one must stand.
fn unexpected(expected: &str, answered: &Answered) -> Finding {
    Finding {
        call: "of a window".to_string(),
        what: format!("the answer must be {expected}"),
        rust: format!("no such call; the scope: {answered:?}"),
        ours: "the same".to_string(),
    }
}
