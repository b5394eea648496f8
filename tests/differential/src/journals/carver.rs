//! The subject `carver`: `carve_usn_records`, with its counters.

use super::known::Known;
use super::listing::{Given, Lister, Named, Walk};
use super::walks;
use crate::difference::Outcome;
use crate::library::{usn_carve_records, CARVING_FIELDS};
use crate::usn::carver::carve_usn_records;
use crate::Run;

const CARVER: Lister = Lister {
    subject: "carver",
    stream: 4,
    call: "usn_carve_records",
    fields: &CARVING_FIELDS,
    rust,
    ours: usn_carve_records,
    document,
    known,
};

pub fn run(run: &Run) -> Outcome {
    super::run(&CARVER, run)
}

/// An input of the fuzzer.
#[cfg(fuzzing)]
pub fn fuzzed(bytes: &[u8], random: &mut crate::random::Random) -> Outcome {
    super::listing::random_case(&CARVER, (0, 0), crate::fuzz::FUZZED, bytes, random)
}

fn rust(data: &[u8]) -> Given {
    let (carved, stats) = carve_usn_records(data);
    let words = vec![
        stats.bytes_scanned as u64,
        stats.candidates_examined,
        stats.records_carved as u64,
        stats.rejected_timestamp,
        stats.rejected_structure,
    ];
    let (offsets, records) = carved.into_iter().map(|found| (found.offset, found.record)).unzip();
    Given {
        records,
        offsets: Some(offsets),
        words,
    }
}

fn document(data: &[u8]) -> Walk {
    let (places, words) = walks::carve(data);
    Walk {
        places,
        words: words.to_vec(),
    }
}

fn known(known: &Known) -> Named {
    let carved = known.carved.len() as u64;
    let [timestamp, structure] = known.rejected;
    let candidates = carved + timestamp + structure;
    Named {
        offsets: known.carved.to_vec(),
        words: vec![known.bytes.len() as u64, candidates, carved, timestamp, structure],
    }
}
