//! The scope's walks over a journal: the records that each reader gives, and the carver's counters. They are written
//! from the document, apart from the original and from our library, so that a mistake in one is not repeated here.

use crate::library::BUF_SIZE;
use crate::records::layout::{number, Layout, LARGEST, LAYOUTS, MAJOR_VERSION};

/// Where a record lies in a journal.
#[derive(Debug, Clone, Copy, PartialEq, Eq)]
pub struct Place {
    pub offset: usize,
    pub length: usize,
}

/// The smallest length that the scan takes, that of a version 4 record.
const SMALLEST: usize = 56;

/// The times that are carved, from the first to the last.
pub const FIRST_TIME: i64 = 125_911_584_000_000_000;
pub const LAST_TIME: i64 = 135_379_776_000_000_000;

/// The length field at `offset`. A zero word has length 0, which no reader takes, so that all of them pass zero words
/// by 8.
pub fn length_at(data: &[u8], offset: usize) -> usize {
    let field = data[offset..].first_chunk().expect("the field lies inside");
    u32::from_le_bytes(*field) as usize
}

/// The layout of the record at `offset`, if it is of version 2 or 3.
pub fn layout_at(data: &[u8], offset: usize) -> Option<&'static Layout> {
    let version = number(data, offset + MAJOR_VERSION, 2);
    LAYOUTS
        .into_iter()
        .find(|layout| u64::from(layout.major_version) == version)
}

/// The records that `parse_usn_journal` lists.
pub fn scan(data: &[u8]) -> Vec<Place> {
    let mut places = Vec::new();
    let mut offset = 0;
    while offset + 8 <= data.len() {
        let length = length_at(data, offset);
        if !(SMALLEST..=LARGEST).contains(&length) {
            offset += 8;
            continue;
        }
        if offset + length > data.len() {
            break;
        }
        match layout_at(data, offset) {
            Some(layout) if length >= layout.fixed => places.push(Place { offset, length }),
            None if number(data, offset + MAJOR_VERSION, 2) == 4 => {}
            _ => {
                offset += 8;
                continue;
            }
        }
        offset += length.next_multiple_of(8);
    }
    places
}

/// What becomes of a candidate of the carver.
enum Candidate {
    Carved,
    RejectedStructure,
    RejectedTimestamp,
}

/// The records that `carve_usn_records` lists, and its counters: the bytes, the candidates, those carved, and those
/// rejected for their time and for their structure.
pub fn carve(data: &[u8]) -> (Vec<Place>, [u64; 5]) {
    let mut places = Vec::new();
    let (mut candidates, mut timestamp, mut structure) = (0, 0, 0);
    let mut offset = 0;
    while offset + 8 <= data.len() {
        let length = length_at(data, offset);
        if length == 0 {
            offset += 8;
            continue;
        }
        let mut moves = 8;
        if let Some(candidate) = candidate(data, Place { offset, length }) {
            candidates += 1;
            match candidate {
                Candidate::RejectedStructure => structure += 1,
                Candidate::RejectedTimestamp => timestamp += 1,
                Candidate::Carved => {
                    places.push(Place { offset, length });
                    moves = length.next_multiple_of(8);
                }
            }
        }
        offset += moves;
    }
    let carved = places.len() as u64;
    (places, [data.len() as u64, candidates, carved, timestamp, structure])
}

/// What becomes of the bytes at a place, if they are a candidate.
fn candidate(data: &[u8], place: Place) -> Option<Candidate> {
    let layout = layout_at(data, place.offset)?;
    if !(layout.fixed..=LARGEST).contains(&place.length) {
        return None;
    }
    let record = data.get(place.offset..place.offset + place.length)?;
    let name_length = number(record, layout.name_length, 2) as usize;
    let name_offset = number(record, layout.name_offset, 2) as usize;
    let time = number(record, layout.filetime, 8) as i64;
    let sound = name_offset == layout.fixed
        && name_offset + name_length <= place.length
        && name_length > 0
        && name_length.is_multiple_of(2);
    Some(match (sound, (FIRST_TIME..=LAST_TIME).contains(&time)) {
        (false, _) => Candidate::RejectedStructure,
        (true, false) => Candidate::RejectedTimestamp,
        (true, true) => Candidate::Carved,
    })
}

/// The records that `UsnJournalReader` gives where every read is full.
pub fn window(data: &[u8]) -> Vec<Place> {
    let mut places = Vec::new();
    let (mut position, mut end) = (0, 0);
    loop {
        let refilled = data.len().min(position + BUF_SIZE);
        if position + 8 > end {
            if end == data.len() {
                return places;
            }
            end = refilled;
            continue;
        }
        let length = length_at(data, position);
        if !(8..=LARGEST).contains(&length) {
            position += 8;
            continue;
        }
        if position + length > end {
            if end == data.len() {
                return places;
            }
            end = refilled;
            if position + length > end {
                position += 8;
                continue;
            }
        }
        if layout_at(data, position).is_some_and(|layout| length >= layout.fixed) {
            places.push(Place {
                offset: position,
                length,
            });
        }
        position += length.next_multiple_of(8);
    }
}
