//! Short reads: the Rust's reader loses records where a source delivers fewer bytes than asked, and gives records that
//! are not there. Ours gives what full reads give. Both are held to that on the smallest journals which show it.

use super::calls::Pair;
use super::reading::{records_of, Caller, Stream};
use crate::difference::{Case, Difference, Finding, Outcome};
use crate::records::edges::example;
use crate::records::layout::{Fields, V2};
use std::io::{self, Read, Seek, SeekFrom};

const SUBJECT: &str = "short reads";

/// A source that delivers so many bytes by each read, and then as many as are asked for.
struct Short<'a> {
    bytes: &'a [u8],
    position: usize,
    sizes: &'a [usize],
}

impl Read for Short<'_> {
    fn read(&mut self, buffer: &mut [u8]) -> io::Result<usize> {
        let (size, sizes) = match self.sizes.split_first() {
            Some((&size, sizes)) => (size, sizes),
            None => (buffer.len(), self.sizes),
        };
        self.sizes = sizes;
        let count = (&self.bytes[self.position..]).read(&mut buffer[..size])?;
        self.position += count;
        Ok(count)
    }
}

impl Seek for Short<'_> {
    fn seek(&mut self, to: SeekFrom) -> io::Result<u64> {
        self.position = match to {
            SeekFrom::Start(0) => 0,
            SeekFrom::End(0) => self.bytes.len(),
            other => return Err(io::Error::other(format!("the Rust's reader never seeks {other:?}"))),
        };
        Ok(self.position as u64)
    }
}

/// Delivers in the same sizes to our window.
impl Caller for &[usize] {
    fn size(&mut self, wanted: usize) -> usize {
        let Some((&size, sizes)) = self.split_first() else {
            return wanted;
        };
        *self = sizes;
        size
    }
}

pub fn run() -> Outcome {
    let record = smallest_record();
    let length = record.len();
    for cut in 1..length {
        check(&record, &[cut], 1, 0)?;
    }
    check(&record, &[], 1, 1)?;
    nothing_smaller(&record)?;
    println!(
        "{SUBJECT}: the {length} bytes of a version 2 record without a name in reads of {0} and 1, or cut at any other \
         of their {0} places: the Rust gives no record, ours gives it, as full reads do",
        length - 1
    );
    invented(&record)?;
    let example = example(&V2);
    check(&example, &vec![1; example.len()], 1, 0)
}

/// The smallest record there is: version 2, without a name.
fn smallest_record() -> Vec<u8> {
    let mut record = Vec::new();
    Fields::example(&V2, 0).append(&V2, &mut record);
    record
}

/// Fewer bytes hold no record, so that none can be lost, whatever the reads.
fn nothing_smaller(record: &[u8]) -> Outcome {
    for length in 0..record.len() {
        for cut in 1..length {
            check(&record[..length], &[cut], 0, 0)?;
        }
    }
    Ok(())
}

/// One byte before the record: read by itself, it is forgotten, and the Rust reads the record from there, which lies at
/// no multiple of 8.
fn invented(record: &[u8]) -> Outcome {
    let bytes = [&[0], record].concat();
    check(&bytes, &[], 0, 0)?;
    check(&bytes, &[1], 0, 1)?;
    println!(
        "{SUBJECT}: a zero byte and that record in reads of 1 and {}: the Rust gives a record, ours none, as full \
         reads do",
        record.len()
    );
    Ok(())
}

/// Holds full reads and our window to `full` records, the latter delivered in these sizes, and the Rust over a source
/// of these sizes to `short` records.
fn check(bytes: &[u8], sizes: &[usize], full: usize, short: usize) -> Outcome {
    compare(bytes, sizes, full, short).map_err(|finding| differs(bytes, finding))
}

fn compare(bytes: &[u8], mut sizes: &[usize], full: usize, short: usize) -> Result<(), Finding> {
    let source = Short {
        bytes,
        position: 0,
        sizes,
    };
    let stream = Stream::of(bytes)?;
    let counts = [records_of(source).len(), stream.records.len()];
    if counts != [short, full] {
        return Err(Finding {
            call: format!("UsnJournalReader, reads of {sizes:?} bytes and the rest"),
            what: format!("short reads must give {short} records and full reads {full}"),
            rust: format!("short reads give {} records and full reads {}", counts[0], counts[1]),
            ours: "not called yet".to_string(),
        });
    }
    // The reading holds our window's records to those of the full reads.
    stream.read(&mut Pair::new(), &mut sizes)
}

fn differs(bytes: &[u8], finding: Finding) -> Difference {
    let case = Case {
        subject: SUBJECT,
        seed: None,
        number: 0,
        kind: "short reads",
        bytes,
    };
    case.differs(finding)
}
