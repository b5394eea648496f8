//! The proved reader of NTFS history from Rust, with the names and shapes of the Rust library that it replaces: a user of that
//! one changes the import.
//!
//! The work is done by `libvolume_history.a`, whose functions are proved to meet their contracts; this crate lends them memory,
//! asks again with more where that is too little, and makes `String`s of names. `tools/build-libraries` at the repository's root
//! writes the archive; `RATTLE_STATICLIB` may name another folder than `target/lib` for it. The archive is for x86-64.
//!
//! ```
//! use volume_history::{parse_usn_journal, RewindEngine};
//!
//! # fn main() -> volume_history::Result<()> {
//! # let journal: &[u8] = include_bytes!("../../../samples/journal.bin");
//! let records = parse_usn_journal(journal)?;
//! let resolved = RewindEngine::new().rewind(&records);
//! assert_eq!(resolved[3].full_path, r".\Claims\New folder");
//! assert_eq!(resolved[4].full_path, r".\Claims\Open");
//! # Ok(())
//! # }
//! ```
//!
//! # What differs from the Rust original
//!
//! - A time is a [`Timestamp`] of our own, not `chrono`'s; it has `timestamp()` and `timestamp_subsec_nanos()`.
//! - [`NtfsError::Usn`] holds a [`Refusal`] with a number, not a text.
//! - A slice above 1 GiB ([`MAX_SLICE`]) and a stream above 1 TiB ([`MAX_STREAM`]) are refused, except that
//!   [`carve_mft_entries`] takes an image of any length. [`carve_usn_records`], which has no way to say so, panics then;
//!   [`try_carve_usn_records`] gives an error.
//! - [`carve_mft_entries`] restores the sector ends of an entry before it reads a name, and rejects an entry whose update sequence
//!   array is not sound. The original takes the ends as they are stored: a long name of its has two foreign bytes.
//! - [`UsnJournalReader`] gives the same records however its source cuts the bytes, and takes no stack for rubbish.
//! - [`RewindEngine::insert`] and [`RewindEngine::resolve_path`] go through the table at each call, where the original hashes. Seeding and
//!   rewinding build an index of it.
//! - [`list_usn_journal`] tells where each record stands.
//! - The names of [`UsnReason`] and [`FileAttributes`] are Microsoft's; the original's file of them was not at hand.

mod calls;
pub mod carve;
mod declared;
pub mod error;
pub mod rewind;
mod table;
mod text;
pub mod usn;

pub use carve::{carve_mft_entries, CarvedMftEntry, MftCarvingStats};
pub use error::{NtfsError, Refusal, Result, MAX_SLICE, MAX_STREAM};
pub use rewind::{EntryInfo, EntryKey, RecordSource, ResolvedRecord, RewindEngine};
pub use usn::{
    carve_usn_records, list_usn_journal, parse_usn_journal, parse_usn_record_v2, parse_usn_record_v3,
    try_carve_usn_records, CarvedRecord, CarvingStats, FileAttributes, ListedRecord, Timestamp, UsnJournalReader,
    UsnReason, UsnRecord,
};
