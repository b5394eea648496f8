//! The Rust's calls, timed, each as it is. What it gives is dropped outside the time.

use crate::carve::carve_mft_entries;
use crate::cost::{clock, Cost};
use crate::names::Names;
use crate::sum::Sum;
use crate::usn::carver::carve_usn_records;
use crate::usn::reader::UsnJournalReader;
use crate::usn::record::parse_usn_journal;
use crate::usn::UsnRecord;
use std::io::{Cursor, Read, Result, Seek, SeekFrom};

pub fn scan(journal: &[u8]) -> (Cost, Sum) {
    let (cost, records) = clock(|| parse_usn_journal(journal));
    (cost, sum(&records.expect("the scan has no error")))
}

pub fn carve(journal: &[u8]) -> (Cost, Sum) {
    let (cost, (carved, _)) = clock(|| carve_usn_records(journal));
    (cost, sum(carved.iter().map(|found| &found.record)))
}

/// The window over a source that delivers at most so many bytes by a read.
pub fn window(journal: &[u8], delivery: usize) -> (Cost, Sum) {
    let source = Source {
        bytes: Cursor::new(journal),
        delivery,
    };
    clock(|| {
        let mut sum = Sum::default();
        for record in UsnJournalReader::new(source).expect("a slice has no errors") {
            add(&mut sum, &record.expect("a slice has no errors"));
        }
        sum
    })
}

/// A journal that is read by at most so many bytes.
struct Source<'a> {
    bytes: Cursor<&'a [u8]>,
    delivery: usize,
}

impl Read for Source<'_> {
    fn read(&mut self, buffer: &mut [u8]) -> Result<usize> {
        let count = buffer.len().min(self.delivery);
        self.bytes.read(&mut buffer[..count])
    }
}

impl Seek for Source<'_> {
    fn seek(&mut self, to: SeekFrom) -> Result<u64> {
        self.bytes.seek(to)
    }
}

fn sum<'a>(records: impl IntoIterator<Item = &'a UsnRecord>) -> Sum {
    let mut sum = Sum::default();
    for record in records {
        add(&mut sum, record);
    }
    sum
}

fn add(sum: &mut Sum, record: &UsnRecord) {
    let seconds = record.timestamp.timestamp() as u64;
    sum.add([
        record.mft_entry,
        record.usn as u64,
        seconds,
        record.reason.bits().into(),
    ]);
}

pub fn image(image: &[u8]) -> (Cost, Sum) {
    let (cost, (entries, _)) = clock(|| carve_mft_entries(image));
    let mut sum = Sum::default();
    for entry in &entries {
        let fields = [entry.entry_number, entry.sequence_number.into(), entry.parent_entry];
        sum.add_entry(fields, entry.filename.as_bytes());
    }
    (cost, sum)
}

/// The texts of all names are kept.
pub fn names(names: &Names) -> (Cost, Sum) {
    let (cost, texts) = clock(|| names.iter().map(decoded).collect::<Vec<String>>());
    let mut sum = Sum::default();
    texts.iter().for_each(|text| sum.add_text(text.as_bytes()));
    (cost, sum)
}

/// Each text is dropped before the next one is made.
pub fn names_one_by_one(names: &Names) -> (Cost, Sum) {
    clock(|| {
        let mut sum = Sum::default();
        names.iter().for_each(|name| sum.add_text(decoded(name).as_bytes()));
        sum
    })
}

/// The text of a name, by the lines with which the original's readers decode one.
fn decoded(name: &[u8]) -> String {
    let u16_chars: Vec<u16> = name.chunks_exact(2).map(|c| u16::from_le_bytes([c[0], c[1]])).collect();
    String::from_utf16_lossy(&u16_chars)
}
