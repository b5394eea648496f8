//! Records in raw bytes.

use super::listing::{enough, filled, records};
use super::UsnRecord;
use crate::calls;
use crate::error::{index, Result};

/// A carved record, and where it was found.
#[derive(Debug, Clone, PartialEq, Eq)]
pub struct CarvedRecord {
    /// In bytes, from the start of the data.
    pub offset: usize,
    pub record: UsnRecord,
}

/// What a carving met. The candidates are the carved records and those rejected.
#[derive(Debug, Clone, Default, PartialEq, Eq)]
pub struct CarvingStats {
    pub bytes_scanned: usize,
    pub candidates_examined: u64,
    pub records_carved: usize,
    /// Rejected for a time before 2000 or after 2029.
    pub rejected_timestamp: u64,
    /// Rejected for the name's place.
    pub rejected_structure: u64,
}

/// The version 2 and 3 records in raw bytes, wherever one stands at a multiple of 8, and what was met.
///
/// # Panics
///
/// Where `data` is longer than [`MAX_SLICE`](crate::MAX_SLICE); [`try_carve_usn_records`] says so instead.
pub fn carve_usn_records(data: &[u8]) -> (Vec<CarvedRecord>, CarvingStats) {
    match try_carve_usn_records(data) {
        Ok(carved) => carved,
        Err(error) => panic!("carve_usn_records: {error}"),
    }
}

/// The same, with an error where the Rust original has no limit.
///
/// # Errors
///
/// [`NtfsError::Usn`](crate::NtfsError::Usn) with the refusal 1 where `data` is longer than [`MAX_SLICE`](crate::MAX_SLICE).
pub fn try_carve_usn_records(data: &[u8]) -> Result<(Vec<CarvedRecord>, CarvingStats)> {
    let (list, out) = filled(data, enough(data), calls::usn_carve_records, 2)?;
    let carved = records(data, &list)
        .map(|(offset, record)| CarvedRecord { offset, record })
        .collect();
    let stats = CarvingStats {
        bytes_scanned: index(out[0]),
        candidates_examined: out[1],
        records_carved: index(out[2]),
        rejected_timestamp: out[3],
        rejected_structure: out[4],
    };
    Ok((carved, stats))
}
