//! What a call may fail with.

use std::fmt;

/// The refusals that this crate answers itself, by lending more.
pub(crate) const LIST_FULL: u32 = 5;
pub(crate) const TABLE_FULL: u32 = 6;
pub(crate) const TEXT_FULL: u32 = 8;

/// The longest slice that a call takes, in bytes. A longer one is refused with 1.
pub const MAX_SLICE: usize = 1_073_741_824;

/// The longest stream that a [`UsnJournalReader`](crate::UsnJournalReader) takes, in bytes. A longer one is refused with 1.
pub const MAX_STREAM: u64 = 1_099_511_627_776;

/// Why a call refused its input: the number of the first test that failed.
#[derive(Debug, Clone, Copy, PartialEq, Eq, Hash)]
pub struct Refusal(pub(crate) u32);

impl Refusal {
    /// The number, as the library's C header lists them.
    pub fn number(&self) -> u32 {
        self.0
    }
}

impl fmt::Display for Refusal {
    fn fmt(&self, f: &mut fmt::Formatter<'_>) -> fmt::Result {
        let says = match self.0 {
            1 => "the input is longer than the library takes",
            2 => "the data is shorter than the record's fixed part",
            3 => "the record's length is below its fixed part or above 65536",
            4 => "the record's length passes the data",
            _ => "the library refused the call",
        };
        write!(f, "{says} (refusal {})", self.0)
    }
}

impl std::error::Error for Refusal {}

/// The errors of this crate.
#[derive(Debug)]
pub enum NtfsError {
    /// Bytes that are no record, or more than the library takes.
    Usn(Refusal),
    /// A source that cannot be read.
    Io(std::io::Error),
}

/// The results of this crate.
pub type Result<T> = std::result::Result<T, NtfsError>;

impl fmt::Display for NtfsError {
    fn fmt(&self, f: &mut fmt::Formatter<'_>) -> fmt::Result {
        match self {
            NtfsError::Usn(refusal) => refusal.fmt(f),
            NtfsError::Io(error) => error.fmt(f),
        }
    }
}

impl std::error::Error for NtfsError {
    fn source(&self) -> Option<&(dyn std::error::Error + 'static)> {
        match self {
            NtfsError::Usn(refusal) => Some(refusal),
            NtfsError::Io(error) => Some(error),
        }
    }
}

impl From<Refusal> for NtfsError {
    fn from(refusal: Refusal) -> Self {
        NtfsError::Usn(refusal)
    }
}

impl From<std::io::Error> for NtfsError {
    fn from(error: std::io::Error) -> Self {
        NtfsError::Io(error)
    }
}

/// A number of an answer that counts or places something in memory.
pub(crate) fn index(word: u64) -> usize {
    usize::try_from(word).expect("an index of a slice fits")
}

/// Stops at a refusal that what was lent to the call rules out.
pub(crate) fn ruled_out(call: &str, refusal: u32) -> ! {
    panic!("{call} refused with {refusal}")
}
