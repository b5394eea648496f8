//! The change journal: its records, the scan, the carver, and the reader of a stream.

mod attributes;
mod carver;
mod listing;
mod reader;
mod reason;
mod record;

pub use attributes::FileAttributes;
pub use carver::{carve_usn_records, try_carve_usn_records, CarvedRecord, CarvingStats};
pub use listing::{list_usn_journal, parse_usn_journal, ListedRecord};
pub use reader::UsnJournalReader;
pub use reason::UsnReason;
pub use record::{parse_usn_record_v2, parse_usn_record_v3, Timestamp, UsnRecord};
