//! Stands in for the original's `error.rs`: the two errors that its files make, and their `Result`.

use std::fmt;

#[derive(Debug)]
pub enum NtfsError {
    /// A journal record that cannot be read, and why.
    Usn(String),
    /// A source that cannot be read.
    Io(std::io::Error),
}

pub type Result<T> = std::result::Result<T, NtfsError>;

impl fmt::Display for NtfsError {
    fn fmt(&self, f: &mut fmt::Formatter<'_>) -> fmt::Result {
        match self {
            NtfsError::Usn(why) => f.write_str(why),
            NtfsError::Io(error) => error.fmt(f),
        }
    }
}

impl From<std::io::Error> for NtfsError {
    fn from(error: std::io::Error) -> Self {
        NtfsError::Io(error)
    }
}
