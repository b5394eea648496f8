//! The records of a journal that is read from a source, without holding it in memory.

use std::io::{self, Read, Seek, SeekFrom};

use super::record::record_of;
use super::UsnRecord;
use crate::calls::{self, READER_WORDS, READING_END, READING_WANTS, READING_WORDS, WINDOW_BYTES};
use crate::error::{index, Refusal, Result};

/// An iterator over the records of a source, which holds 64 KiB of it at a time.
///
/// However the source cuts its bytes, the records are those of full reads. A source that gives no bytes before the length that it
/// had at first ends the reading. After an I/O error the next call asks the source for the same bytes again.
pub struct UsnJournalReader<R: Read + Seek> {
    source: R,
    window: [u64; READER_WORDS],
    buffer: Vec<u8>,
    /// What a read of the source fills, before it is given to the window.
    piece: Vec<u8>,
    /// Where the source stands, unless an error left that open.
    at: Option<u64>,
}

impl<R: Read + Seek> UsnJournalReader<R> {
    /// A reader of the whole source, whose length is where its end is sought.
    ///
    /// # Errors
    ///
    /// [`NtfsError::Io`](crate::NtfsError::Io) where the source cannot be sought, and [`NtfsError::Usn`](crate::NtfsError::Usn)
    /// with the refusal 1 where it is longer than [`MAX_STREAM`](crate::MAX_STREAM).
    pub fn new(mut source: R) -> Result<Self> {
        let total = source.seek(SeekFrom::End(0))?;
        source.seek(SeekFrom::Start(0))?;
        let mut reader = Self {
            source,
            window: [0; READER_WORDS],
            buffer: vec![0; WINDOW_BYTES],
            piece: vec![0; WINDOW_BYTES],
            at: Some(0),
        };
        accepted(calls::usn_reader_new(total, &mut reader.window))?;
        // The first answer says what is wanted, or that the source is too long; asked again it is the same.
        reader.step()?;
        Ok(reader)
    }

    /// The window's next answer.
    fn step(&mut self) -> Result<[u64; READING_WORDS]> {
        let mut out = [0; READING_WORDS];
        accepted(calls::usn_reader_next(&mut self.window, &self.buffer, &mut out))?;
        Ok(out)
    }

    /// Gives the window what one read of the source delivers of the bytes that it wants.
    fn refill(&mut self, from: u64, wanted: usize) -> Result<()> {
        if self.at != Some(from) {
            self.at = None;
            self.source.seek(SeekFrom::Start(from))?;
        }
        self.at = None;
        let piece = &mut self.piece[..wanted];
        let length = loop {
            match self.source.read(piece) {
                Err(error) if error.kind() == io::ErrorKind::Interrupted => {}
                delivered => break delivered?.min(wanted),
            }
        };
        self.at = Some(from + length as u64);
        let mut out = [0; READING_WORDS];
        accepted(calls::usn_reader_give(
            &mut self.window,
            &mut self.buffer,
            &self.piece[..length],
            &mut out,
        ))
    }
}

impl<R: Read + Seek> Iterator for UsnJournalReader<R> {
    type Item = Result<UsnRecord>;

    fn next(&mut self) -> Option<Self::Item> {
        loop {
            let out = match self.step() {
                Ok(out) => out,
                Err(error) => return Some(Err(error)),
            };
            match out[0] {
                READING_END => return None,
                READING_WANTS => {
                    if let Err(error) = self.refill(out[1], index(out[2])) {
                        return Some(Err(error));
                    }
                }
                _ => {
                    let words = out[3..].try_into().expect("a record's words follow its place");
                    return Some(Ok(record_of(words, &self.buffer)));
                }
            }
        }
    }
}

/// A call's number as a result.
fn accepted(number: u32) -> Result<()> {
    match number {
        0 => Ok(()),
        refusal => Err(Refusal(refusal).into()),
    }
}
