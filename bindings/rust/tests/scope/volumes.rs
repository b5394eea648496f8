//! Entries of a real volume, whose names lie across sector ends. What is expected comes from other tools
//! (`tests/samples/README.md`).

use std::fmt::Write;

use volume_history::{carve_mft_entries, EntryKey, RewindEngine};

const IMAGE: &[u8] = include_bytes!("../../../../tests/samples/sector-ends.bin");
const EXPECTED: &str = include_str!("../../../../tests/samples/sector-ends.txt");

#[test]
fn names_across_sector_ends() {
    let (entries, stats) = carve_mft_entries(IMAGE);
    let mut engine = RewindEngine::new();
    engine.seed_from_carved(&entries);
    let mut lines = format!(
        "entries {} candidates {} rejected {} bytes {}\n",
        stats.entries_carved, stats.candidates_examined, stats.rejected, stats.bytes_scanned
    );
    for e in &entries {
        let path = engine.resolve_path(&EntryKey::new(e.entry_number, e.sequence_number));
        let file = format!("{} {} {}", e.offset, e.entry_number, e.sequence_number);
        let parent = format!("{} {}", e.parent_entry, e.parent_sequence);
        let flags = [e.is_directory, e.is_in_use].map(u8::from);
        writeln!(
            lines,
            "{file} {parent} {} {}\t{}\t{path}",
            flags[0], flags[1], e.filename
        )
        .unwrap();
    }
    for (line, expected) in lines.lines().zip(EXPECTED.lines()) {
        assert_eq!(line, expected);
    }
    assert_eq!(lines, EXPECTED);
}
