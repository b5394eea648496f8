//! The listing of a journal, as the scope describes what `usnlist` prints, with the original's records and paths.

use crate::rewind::RewindEngine;
use crate::usn::record::{parse_usn_journal, parse_usn_record_v2, parse_usn_record_v3};
use crate::usn::UsnRecord;
use std::io::Write;

/// As much of its input as `usnlist` takes, and the longest path that it shows.
pub const BYTES: usize = 65536;

const HEADER: &str = "offset version entry sequence parent parent-sequence usn seconds nanoseconds reason path";

/// What `usnlist` has to print for this input.
pub fn of(input: &[u8]) -> Vec<u8> {
    let journal = &input[..input.len().min(BYTES)];
    let records = parse_usn_journal(journal).expect("the original's scan makes no error");
    let offsets = offsets(journal);
    assert_eq!(records.len(), offsets.len(), "the scope's walk and the original's scan");

    let mut text = Vec::new();
    writeln!(text, "{HEADER}").expect("a vector takes all");
    for (resolved, offset) in RewindEngine::new().rewind(&records).iter().zip(offsets) {
        let record = &resolved.record;
        assert_eq!(
            format!("{record:?}"),
            format!("{:?}", parsed(journal, offset)),
            "the record at {offset}"
        );
        write!(
            text,
            "{offset} {} {} {} {} {} {} {} {} {:08x} ",
            record.major_version,
            record.mft_entry,
            record.mft_sequence,
            record.parent_mft_entry,
            record.parent_mft_sequence,
            record.usn,
            record.timestamp.timestamp(),
            record.timestamp.timestamp_subsec_nanos(),
            record.reason.bits(),
        )
        .expect("a vector takes all");
        text.extend(shown(resolved.full_path.as_bytes()));
        text.push(b'\n');
    }
    writeln!(text, "records {}", records.len()).expect("a vector takes all");
    text
}

/// The paths of a listing, as they are shown there.
pub fn paths(listing: &[u8]) -> impl Iterator<Item = &[u8]> {
    let lines = listing.split(|&byte| byte == b'\n').skip(1);
    lines.filter_map(|line| line.splitn(11, |&byte| byte == b' ').nth(10))
}

/// A path as it is shown.
fn shown(path: &[u8]) -> Vec<u8> {
    if path.len() > BYTES {
        return vec![b'?'];
    }
    path.iter().map(|&byte| if byte < 0x20 { b'?' } else { byte }).collect()
}

/// The offsets of the records that the scan lists. The original does not tell them, so this is the scope's walk; each
/// record is held to the one that the original's parser finds there.
fn offsets(journal: &[u8]) -> Vec<usize> {
    let mut found = Vec::new();
    let mut offset = 0;
    while offset + 8 <= journal.len() {
        let length = length_at(journal, offset);
        if !(56..=65536).contains(&length) {
            offset += 8;
            continue;
        }
        if offset + length > journal.len() {
            break;
        }
        match version_at(journal, offset) {
            2 if length >= 60 => found.push(offset),
            3 if length >= 76 => found.push(offset),
            4 => {}
            _ => {
                offset += 8;
                continue;
            }
        }
        offset += length.next_multiple_of(8);
    }
    found
}

fn parsed(journal: &[u8], offset: usize) -> UsnRecord {
    let part = &journal[offset..offset + length_at(journal, offset)];
    let record = match version_at(journal, offset) {
        2 => parse_usn_record_v2(part),
        _ => parse_usn_record_v3(part),
    };
    record.expect("the original's parser accepts what its scan listed")
}

fn length_at(journal: &[u8], offset: usize) -> usize {
    u32::from_le_bytes(*journal[offset..].first_chunk().expect("four bytes")) as usize
}

fn version_at(journal: &[u8], offset: usize) -> u16 {
    u16::from_le_bytes(*journal[offset + 4..].first_chunk().expect("two bytes"))
}
