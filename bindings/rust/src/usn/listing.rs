//! The scan of a whole journal, and what it shares with the carver.

use super::record::record_of;
use super::UsnRecord;
use crate::calls::{self, RECORD_WORDS};
use crate::error::{index, ruled_out, Refusal, Result, LIST_FULL, MAX_SLICE};

/// A record, and where it stands.
#[derive(Debug, Clone, PartialEq, Eq)]
pub struct ListedRecord {
    /// In bytes, from the start of the journal.
    pub offset: usize,
    pub record: UsnRecord,
}

/// All version 2 and 3 records of a journal, in order. Records of version 4, zeros and rubbish are passed.
///
/// # Errors
///
/// [`NtfsError::Usn`](crate::NtfsError::Usn) with the refusal 1 where `data` is longer than [`MAX_SLICE`].
pub fn parse_usn_journal(data: &[u8]) -> Result<Vec<UsnRecord>> {
    let (list, _) = filled(data, enough(data), calls::usn_parse_journal, 0)?;
    Ok(records(data, &list).map(|(_, record)| record).collect())
}

/// The same with the offset of each record, which the Rust original does not tell.
///
/// # Errors
///
/// As [`parse_usn_journal`].
pub fn list_usn_journal(data: &[u8]) -> Result<Vec<ListedRecord>> {
    let (list, _) = filled(data, enough(data), calls::usn_parse_journal, 0)?;
    Ok(records(data, &list)
        .map(|(offset, record)| ListedRecord { offset, record })
        .collect())
}

/// So many words of a list take all records of the data, of which each has 64 bytes or is the last. Then the library need not
/// count them before it writes the first.
pub(super) fn enough(data: &[u8]) -> usize {
    2 * (data.len().min(MAX_SLICE) / 64 + 1)
}

/// The words of a list that a call fills, two a record, and its answer, of which the word `count` says how many records there are.
/// The list has `first` words to begin with, and more while the call says that it is too short.
pub(super) fn filled<const N: usize>(
    data: &[u8],
    first: usize,
    call: fn(&[u8], &mut [usize], &mut [u64; N]) -> u32,
    count: usize,
) -> std::result::Result<(Vec<usize>, [u64; N]), Refusal> {
    let mut list = vec![0; first];
    let mut out = [0; N];
    loop {
        match call(data, &mut list, &mut out) {
            0 => break,
            LIST_FULL => list.resize(2 * list.len() + 2, 0),
            refusal => return Err(Refusal(refusal)),
        }
    }
    list.truncate(2 * index(out[count]));
    Ok((list, out))
}

/// The records of a list, each with its offset.
pub(super) fn records<'a>(data: &'a [u8], list: &'a [usize]) -> impl Iterator<Item = (usize, UsnRecord)> + 'a {
    list.chunks_exact(2).map(|place| (place[0], record_at(data, place[0])))
}

/// The record at a listed offset.
fn record_at(data: &[u8], offset: usize) -> UsnRecord {
    let mut words = [0; RECORD_WORDS];
    match calls::usn_listed_record(data, offset, &mut words) {
        0 => record_of(&words, &data[offset..]),
        refusal => ruled_out("usn_listed_record", refusal),
    }
}

#[cfg(test)]
mod tests {
    use super::*;

    /// Version 2 records of 64 bytes without a name.
    fn journal(records: usize) -> Vec<u8> {
        let mut record = [0; 64];
        record[0] = 64;
        record[4] = 2;
        record.repeat(records)
    }

    #[test]
    fn a_list_grows_until_it_is_long_enough() {
        let data = journal(100);
        let whole = filled(&data, enough(&data), calls::usn_parse_journal, 0).unwrap();
        assert_eq!(whole.0.len(), 200);
        assert_eq!(whole.1, [100]);
        for first in [0, 1, 2, 3, 199, 200, 201] {
            assert_eq!(
                filled(&data, first, calls::usn_parse_journal, 0).unwrap(),
                whole,
                "from {first} words on"
            );
        }
    }
}
