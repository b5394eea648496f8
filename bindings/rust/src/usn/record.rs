//! A record of the change journal, and the parsers.

use super::{FileAttributes, UsnReason};
use crate::calls::{self, RECORD_WORDS};
use crate::error::{index, Refusal, Result};
use crate::text::decoded;

/// A time in UTC, as the seconds and nanoseconds since the first of 1970. An earlier one is that day's first second.
#[derive(Debug, Clone, Copy, PartialEq, Eq, PartialOrd, Ord, Hash, Default)]
pub struct Timestamp {
    pub seconds: i64,
    pub nanoseconds: u32,
}

impl Timestamp {
    /// The whole seconds, under the name that they have in `chrono`.
    pub fn timestamp(&self) -> i64 {
        self.seconds
    }

    /// The nanoseconds past the whole second, under the name that they have in `chrono`.
    pub fn timestamp_subsec_nanos(&self) -> u32 {
        self.nanoseconds
    }
}

/// A record of version 2 or 3.
#[derive(Debug, Clone, PartialEq, Eq)]
pub struct UsnRecord {
    /// The file's MFT entry number, 48 bits of its reference.
    pub mft_entry: u64,
    /// The file's sequence number, 0 in version 3.
    pub mft_sequence: u16,
    /// The parent folder's MFT entry number.
    pub parent_mft_entry: u64,
    /// The parent folder's sequence number.
    pub parent_mft_sequence: u16,
    /// The update sequence number.
    pub usn: i64,
    /// When the record was written.
    pub timestamp: Timestamp,
    /// What happened.
    pub reason: UsnReason,
    /// The file's name, without its folder.
    pub filename: String,
    /// The file's attributes.
    pub file_attributes: FileAttributes,
    /// What caused the change.
    pub source_info: u32,
    /// The security descriptor's number.
    pub security_id: u32,
    /// 2 or 3.
    pub major_version: u16,
}

/// The version 2 record that `data` begins with, whatever its version field says.
///
/// # Errors
///
/// [`NtfsError::Usn`](crate::NtfsError::Usn) with the refusal 1 where `data` is above the domain, 2 where it is shorter than 60
/// bytes, 3 where the length field is outside 60..=65536, 4 where that length passes `data`.
pub fn parse_usn_record_v2(data: &[u8]) -> Result<UsnRecord> {
    let mut words = [0; RECORD_WORDS];
    match calls::usn_parse_record_v2(data, &mut words) {
        0 => Ok(record_of(&words, data)),
        refusal => Err(Refusal(refusal).into()),
    }
}

/// The version 3 record that `data` begins with, whatever its version field says.
///
/// # Errors
///
/// [`NtfsError::Usn`](crate::NtfsError::Usn) with the refusal 1 where `data` is above the domain, 2 where it is shorter than 76
/// bytes, 3 where the length field is outside 76..=65536.
pub fn parse_usn_record_v3(data: &[u8]) -> Result<UsnRecord> {
    let mut words = [0; RECORD_WORDS];
    match calls::usn_parse_record_v3(data, &mut words) {
        0 => Ok(record_of(&words, data)),
        refusal => Err(Refusal(refusal).into()),
    }
}

/// The record of these words, whose name's place counts from the start of `bytes`.
pub(super) fn record_of(words: &[u64; RECORD_WORDS], bytes: &[u8]) -> UsnRecord {
    let offset = index(words[12]);
    let name = &bytes[offset..offset + index(words[13])];
    UsnRecord {
        mft_entry: words[0],
        mft_sequence: words[1] as u16,
        parent_mft_entry: words[2],
        parent_mft_sequence: words[3] as u16,
        usn: words[4] as i64,
        timestamp: Timestamp {
            seconds: words[5] as i64,
            nanoseconds: words[6] as u32,
        },
        reason: UsnReason::from_bits_retain(words[7] as u32),
        filename: decoded(name),
        file_attributes: FileAttributes::from_bits_retain(words[8] as u32),
        source_info: words[9] as u32,
        security_id: words[10] as u32,
        major_version: words[11] as u16,
    }
}
