//! The Rust's calls, timed, each as it is. What it gives is dropped outside the time.

use super::history::History;
use crate::carve::carve_mft_entries;
use crate::cost::{clock, Cost};
use crate::rewind::{EntryKey, ResolvedRecord, RewindEngine};
use crate::sum::Sum;
use crate::usn::record::parse_usn_journal;

/// The entries are carved before the time begins.
pub fn seed(history: &History) -> (Cost, Sum) {
    let (entries, _) = carve_mft_entries(&history.image);
    let (cost, engine) = clock(|| {
        let mut engine = RewindEngine::new();
        engine.seed_from_carved(&entries);
        engine
    });
    let keys = entries
        .iter()
        .map(|entry| EntryKey::new(entry.entry_number, entry.sequence_number));
    (cost, paths(&engine, engine.lookup_len(), keys))
}

/// The journal is parsed and the table is seeded before the time begins.
pub fn rewind(history: &History) -> (Cost, Sum) {
    let (cost, resolved) = rewound(history);
    let mut sum = Sum::default();
    for record in &resolved {
        sum.add_text(record.full_path.as_bytes());
    }
    (cost, sum)
}

/// The records with their paths.
pub fn rewound(history: &History) -> (Cost, Vec<ResolvedRecord>) {
    let records = parse_usn_journal(&history.journal).expect("the scan has no error");
    let mut engine = RewindEngine::new();
    engine.seed_from_carved(&carve_mft_entries(&history.image).0);
    clock(|| engine.rewind(&records))
}

/// What a table of so many keys says of these: their paths.
pub fn paths(engine: &RewindEngine, keys: usize, of: impl Iterator<Item = EntryKey>) -> Sum {
    let mut sum = Sum::default();
    sum.add_keys(keys);
    of.for_each(|key| sum.add_text(engine.resolve_path(&key).as_bytes()));
    sum
}
