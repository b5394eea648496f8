//! The subject `journal`: `parse_usn_journal`. The Rust tells no offsets; they are those of the scope's walk, at each
//! of which its parser must find the record again.

use super::known::Known;
use super::listing::{Given, Lister, Named, Walk};
use super::walks;
use crate::difference::Outcome;
use crate::library::{usn_parse_journal, SCAN_FIELDS};
use crate::usn::record::parse_usn_journal;
use crate::Run;

const SCAN: Lister = Lister {
    subject: "journal",
    stream: 3,
    call: "usn_parse_journal",
    fields: &SCAN_FIELDS,
    rust,
    ours: usn_parse_journal,
    document,
    known,
};

pub fn run(run: &Run) -> Outcome {
    super::run(&SCAN, run)
}

/// An input of the fuzzer.
#[cfg(fuzzing)]
pub fn fuzzed(bytes: &[u8], random: &mut crate::random::Random) -> Outcome {
    super::listing::random_case(&SCAN, (0, 0), crate::fuzz::FUZZED, bytes, random)
}

fn rust(data: &[u8]) -> Given {
    let records = parse_usn_journal(data).expect("the scan has no error");
    Given {
        words: vec![records.len() as u64],
        records,
        offsets: None,
    }
}

fn document(data: &[u8]) -> Walk {
    let places = walks::scan(data);
    Walk {
        words: vec![places.len() as u64],
        places,
    }
}

fn known(known: &Known) -> Named {
    Named {
        offsets: known.scanned.to_vec(),
        words: vec![known.scanned.len() as u64],
    }
}
