//! Stands in for the original's `usn/mod.rs`: its three files here, the two stand-ins beside them, and the names that
//! the original's other files take from `crate::usn`.

pub mod attributes;
pub mod reason;

include!(concat!(env!("OUT_DIR"), "/original_usn.rs"));

pub use reason::UsnReason;
pub use record::{parse_usn_record_v2, parse_usn_record_v3, UsnRecord};
