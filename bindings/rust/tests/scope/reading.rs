//! The reader of a stream.

use std::io::{self, Cursor, Read, Seek, SeekFrom};

use volume_history::{parse_usn_journal, NtfsError, UsnJournalReader, UsnRecord, MAX_STREAM};

use crate::layout::{change, e, header, journal, Record};
use crate::records::{parsed_e, refusal};

/// A source that delivers its bytes in pieces of these sizes, again and again.
struct Pieces {
    source: Cursor<Vec<u8>>,
    sizes: Vec<usize>,
    reads: usize,
}

impl Read for Pieces {
    fn read(&mut self, buffer: &mut [u8]) -> io::Result<usize> {
        let size = self.sizes[self.reads % self.sizes.len()].min(buffer.len());
        self.reads += 1;
        self.source.read(&mut buffer[..size])
    }
}

impl Seek for Pieces {
    fn seek(&mut self, to: SeekFrom) -> io::Result<u64> {
        self.source.seek(to)
    }
}

/// The records of a journal whose bytes come in pieces of these sizes.
fn read(data: &[u8], sizes: &[usize]) -> Vec<UsnRecord> {
    let source = Pieces {
        source: Cursor::new(data.to_vec()),
        sizes: sizes.to_vec(),
        reads: 0,
    };
    UsnJournalReader::new(source)
        .unwrap()
        .collect::<Result<_, _>>()
        .unwrap()
}

/// Those of full reads.
fn read_whole(data: &[u8]) -> Vec<UsnRecord> {
    UsnJournalReader::new(Cursor::new(data))
        .unwrap()
        .collect::<Result<_, _>>()
        .unwrap()
}

#[test]
fn p1_an_empty_stream_has_no_records() {
    assert_eq!(read_whole(&[]), []);
}

#[test]
fn e_in_reads_of_one_byte() {
    assert_eq!(read(&e().bytes(), &[1]), [parsed_e()]);
    assert_eq!(read_whole(&e().bytes()), [parsed_e()]);
}

#[test]
fn a_record_cut_in_two() {
    let nameless = Record {
        name: Vec::new(),
        ..e()
    };
    let data = nameless.bytes();
    for first in 1..60 {
        assert_eq!(read(&data, &[first, 60 - first]).len(), 1, "{first}");
    }
    assert_eq!(read(&[vec![0], data].concat(), &[1, 60]), []);
}

#[test]
fn p4_a_short_length_moves_the_window_by_it() {
    let data = [header(48, 9), e().bytes()].concat();
    assert_eq!(read_whole(&data), []);
    let mut whole = header(48, 9);
    whole.resize(48, 0xff);
    assert_eq!(read_whole(&[whole, e().bytes()].concat()), [parsed_e()]);
}

#[test]
fn p5_a_length_past_the_end_ends_the_reading() {
    assert_eq!(read_whole(&[header(96, 2), e().bytes()].concat()), []);
}

#[test]
fn windows_and_pieces() {
    let records: Vec<_> = (0..2500_u64)
        .map(|i| {
            let name = "name ".repeat(1 + i as usize % 30);
            let version = 2 + u16::from(i % 7 == 0);
            Record {
                version,
                usn: i as i64,
                ..change((100 + i, 1), (5, 5), 0x100, &name)
            }
        })
        .collect();
    let data = journal(&records);
    assert!(data.len() > 4 * 65536);
    let expected = parse_usn_journal(&data).unwrap();
    assert_eq!(expected.len(), records.len());
    assert_eq!(read_whole(&data), expected);
    for sizes in [
        &[1][..],
        &[7],
        &[4096],
        &[65535],
        &[59, 1],
        &[1, 65536],
        &[3, 1000, 2, 50_000],
    ] {
        assert_eq!(read(&data, sizes), expected, "pieces of {sizes:?}");
    }
}

#[test]
fn the_longest_record() {
    let long = Record {
        length: Some(65536),
        ..e()
    };
    let mut bytes = long.bytes();
    bytes.resize(65536, 0x77);
    let data = [e().bytes(), bytes, e().bytes()].concat();
    assert_eq!(read(&data, &[1000]), [parsed_e(), parsed_e(), parsed_e()]);
}

#[test]
fn long_rubbish_takes_no_stack() {
    let mut data = header(8, 9).repeat(1 << 17);
    data.extend(e().bytes());
    assert_eq!(read_whole(&data), [parsed_e()]);
}

/// A source with a length of its own, whose reads go wrong or end where they are told.
struct Faulty {
    source: Cursor<Vec<u8>>,
    total: u64,
    faults: Vec<io::ErrorKind>,
}

impl Read for Faulty {
    fn read(&mut self, buffer: &mut [u8]) -> io::Result<usize> {
        match self.faults.pop() {
            Some(fault) => Err(fault.into()),
            None => self.source.read(buffer),
        }
    }
}

impl Seek for Faulty {
    fn seek(&mut self, to: SeekFrom) -> io::Result<u64> {
        match to {
            SeekFrom::End(0) => Ok(self.total),
            _ => self.source.seek(to),
        }
    }
}

/// A source of E with these faults, the last one first, and this length.
fn faulty(total: u64, faults: &[io::ErrorKind]) -> Faulty {
    Faulty {
        source: Cursor::new(e().bytes()),
        total,
        faults: faults.to_vec(),
    }
}

#[test]
fn an_interrupted_read_is_repeated() {
    let reader = UsnJournalReader::new(faulty(64, &[io::ErrorKind::Interrupted; 3])).unwrap();
    assert_eq!(reader.map(Result::unwrap).collect::<Vec<_>>(), [parsed_e()]);
}

#[test]
fn after_an_error_the_reading_goes_on() {
    let mut reader = UsnJournalReader::new(faulty(64, &[io::ErrorKind::Other; 2])).unwrap();
    for _ in 0..2 {
        assert!(matches!(reader.next(), Some(Err(NtfsError::Io(error))) if error.kind() == io::ErrorKind::Other));
    }
    assert_eq!(reader.next().unwrap().unwrap(), parsed_e());
    assert!(reader.next().is_none());
    assert!(reader.next().is_none());
}

#[test]
fn a_source_that_is_shorter_than_it_said_ends_the_reading() {
    let mut reader = UsnJournalReader::new(faulty(1000, &[])).unwrap();
    assert!(reader.next().is_none());
    reader = UsnJournalReader::new(faulty(0, &[])).unwrap();
    assert!(reader.next().is_none());
}

#[test]
fn streams_above_the_domain_are_refused() {
    assert_eq!(refusal(UsnJournalReader::new(faulty(MAX_STREAM + 1, &[]))), 1);
    assert_eq!(refusal(UsnJournalReader::new(faulty(u64::MAX, &[]))), 1);
    assert_eq!(refusal(UsnJournalReader::new(faulty(MAX_STREAM, &[]))), 0);
}
