//! The lookup table and its paths.

use volume_history::{parse_usn_journal, CarvedMftEntry, EntryInfo, EntryKey, RewindEngine};

use crate::layout::{change, journal, utf16};

/// What is known of a key.
fn info(name: &str, parent: (u64, u16)) -> EntryInfo {
    EntryInfo {
        name: name.to_owned(),
        parent: EntryKey::new(parent.0, parent.1),
    }
}

/// The path of a key.
pub fn path(engine: &RewindEngine, entry: u64, sequence: u16) -> String {
    engine.resolve_path(&EntryKey::new(entry, sequence))
}

/// A carved entry.
fn carved(number: u64, sequence: u16, name: &str, parent: (u64, u16)) -> CarvedMftEntry {
    CarvedMftEntry {
        offset: 0,
        entry_number: number,
        sequence_number: sequence,
        filename: name.to_owned(),
        parent_entry: parent.0,
        parent_sequence: parent.1,
        is_directory: true,
        is_in_use: true,
    }
}

/// A text of 512 units whose UTF-16 looks like a stored MFT entry: it begins FILE, has a sound array at 48, and the true sector ends
/// in that array differ from the stored ones.
fn like_an_entry() -> String {
    let mut units = vec![u16::from(b'a'); 512];
    let [file, array] = [
        [0x4946, 0x454c, 48, 3],
        [u16::from(b'x'), u16::from(b'p'), u16::from(b'q'), 0x20],
    ];
    units[..4].copy_from_slice(&file);
    units[10] = 56;
    units[24..28].copy_from_slice(&array);
    units[255] = array[0];
    units[511] = array[0];
    let text = String::from_utf16(&units).expect("no unit is a surrogate");
    assert!(utf16(&text).starts_with(b"FILE"));
    text
}

/// A ladder of so many names under 5:5: the entry 1000 hangs under it, 1001 under 1000, and so on.
fn ladder(names: u64) -> RewindEngine {
    RewindEngine::from_mft((0..names).map(|i| {
        let parent = if i == 0 { (5, 5) } else { (999 + i, 1) };
        (1000 + i, 1, format!("n{i}"), parent.0, parent.1)
    }))
}

#[test]
fn keys() {
    assert_eq!(EntryKey::root(), EntryKey::new(5, 5));
    assert!(EntryKey::new(5, 9).is_root() && !EntryKey::new(6, 5).is_root());
}

#[test]
fn ends() {
    let mut engine = RewindEngine::new();
    assert_eq!(path(&engine, 5, 5), ".");
    assert_eq!(path(&engine, 5, 0), ".");
    assert_eq!(path(&engine, 7, 65535), "UNKNOWN(7:65535)");
    assert_eq!(path(&engine, u64::MAX, 0), "UNKNOWN(18446744073709551615:0)");
    engine.insert(EntryKey::new(7, 1), info("a", (8, 2)));
    assert_eq!(path(&engine, 7, 1), r"UNKNOWN(8:2)\a");
    assert_eq!(path(&engine, 7, 2), "UNKNOWN(7:2)");
    engine.insert(EntryKey::new(8, 2), info("", (5, 1)));
    assert_eq!(path(&engine, 7, 1), r".\\a");
    engine.insert(EntryKey::new(5, 5), info("never shown", (7, 1)));
    assert_eq!(path(&engine, 5, 5), ".");
    assert_eq!(engine.lookup_len(), 3);
}

#[test]
fn p9_depths() {
    for (names, begins) in [(1, r".\n0"), (256, r".\n0\n1\"), (257, r"UNRESOLVED(5:5)\n0\n1\")] {
        let text = path(&ladder(names), 999 + names, 1);
        assert!(text.starts_with(begins), "{names} names: {text}");
        assert_eq!(text.matches('\\').count() as u64, names);
        assert!(text.ends_with(&format!(r"\n{}", names - 1)));
    }
    let text = path(&ladder(258), 1257, 1);
    assert!(text.starts_with(r"UNRESOLVED(1000:1)\n1\n2\"), "{text}");
    assert_eq!(text.matches('\\').count(), 257);
}

#[test]
fn p9_an_entry_in_itself() {
    let engine = RewindEngine::from_mft([(9, 1, "a".to_owned(), 9, 1)]);
    assert_eq!(path(&engine, 9, 1), format!("UNRESOLVED(9:1){}", r"\a".repeat(257)));
}

#[test]
fn inserting_replaces() {
    let mut engine = RewindEngine::from_mft([
        (30, 1, "first".to_owned(), 5, 5),
        (30, 2, "other".to_owned(), 5, 5),
        (30, 1, "second".to_owned(), 30, 2),
    ]);
    assert_eq!(engine.lookup_len(), 2);
    assert_eq!(path(&engine, 30, 1), r".\other\second");
    engine.insert(EntryKey::new(30, 2), info("third", (5, 5)));
    assert_eq!(engine.lookup_len(), 2);
    assert_eq!(path(&engine, 30, 1), r".\third\second");
}

#[test]
fn seeding_never_replaces() {
    let mut engine = RewindEngine::from_mft([(30, 1, "known".to_owned(), 5, 5)]);
    engine.seed_from_carved(&[]);
    assert_eq!(engine.lookup_len(), 1);
    engine.seed_from_carved(&[
        carved(30, 1, "carved", (5, 5)),
        carved(31, 7, "a", (30, 1)),
        carved(31, 7, "b", (5, 5)),
        carved(31, 8, "c", (31, 7)),
    ]);
    assert_eq!(engine.lookup_len(), 3);
    assert_eq!(path(&engine, 30, 1), r".\known");
    assert_eq!(path(&engine, 31, 8), r".\known\a\c");
    let before = engine.clone();
    engine.seed_from_carved(&[carved(31, 8, "d", (5, 5))]);
    assert_eq!(path(&engine, 31, 8), path(&before, 31, 8));
    engine.insert(EntryKey::new(31, 8), info("inserted", (5, 5)));
    assert_eq!(path(&engine, 31, 8), r".\inserted");
    assert_eq!(path(&before, 31, 8), r".\known\a\c");
}

#[test]
fn tables_grow() {
    let mut engine = RewindEngine::new();
    for i in 0..2000 {
        engine.insert(
            EntryKey::new(100 + i, (i % 3) as u16),
            info(&format!("file {i}"), (5, 5)),
        );
        assert_eq!(engine.lookup_len() as u64, i + 1);
    }
    let entries: Vec<_> = (0..2000)
        .map(|i| carved(100 + i, 9, &format!("carved {i}"), (100 + i, (i % 3) as u16)))
        .collect();
    engine.seed_from_carved(&entries);
    assert_eq!(engine.lookup_len(), 4000);
    for i in [0, 1, 15, 16, 17, 999, 1999] {
        assert_eq!(path(&engine, 100 + i, 9), format!(r".\file {i}\carved {i}"));
    }
}

#[test]
fn texts_grow() {
    let long = "\u{20ac}".repeat(32767);
    let engine = RewindEngine::from_mft((0..20).map(|i| (30 + i, 1, long.clone(), if i == 0 { 5 } else { 29 + i }, 1)));
    assert_eq!(path(&engine, 49, 1), format!(".{}", format!("\\{long}").repeat(20)));
}

/// A table's names stand behind each other in memory of its own, the first at its start: the names here make blocks of 1024 bytes
/// that look like entries, whole and in four parts, two of them with a sector's end.
#[test]
fn names_that_look_like_an_entry_stay_as_they_are() {
    let whole = like_an_entry();
    let units: Vec<char> = whole.chars().collect();
    let parts: Vec<String> = units.chunks(128).map(|part| part.iter().collect()).collect();
    for names in [vec![whole.clone()], vec!["b".repeat(512), whole.clone()], parts] {
        let key = |i: usize| EntryKey::new(30 + i as u64, 1);
        let mut inserted = RewindEngine::new();
        for (i, name) in names.iter().enumerate() {
            inserted.insert(key(i), info(name, (5, 5)));
        }
        let mut seeded = RewindEngine::new();
        let entries = names
            .iter()
            .enumerate()
            .map(|(i, name)| carved(30 + i as u64, 1, name, (5, 5)));
        seeded.seed_from_carved(&entries.collect::<Vec<_>>());
        // Of equal keys the last counts, so that the last entry's name comes first in the table.
        let last_first = names.iter().enumerate().rev();
        let filled = RewindEngine::from_mft(last_first.map(|(i, name)| (30 + i as u64, 1, name.clone(), 5, 5)));
        for mut engine in [inserted, seeded, filled] {
            for (i, name) in names.iter().enumerate() {
                assert_eq!(engine.resolve_path(&key(i)), format!(r".\{name}"));
            }
            let records = names
                .iter()
                .enumerate()
                .map(|(i, _)| change((90, 1), (30 + i as u64, 1), 0x100, "in it"));
            let records = parse_usn_journal(&journal(&records.collect::<Vec<_>>())).unwrap();
            for (resolved, name) in engine.rewind(&records).iter().zip(&names) {
                assert_eq!(resolved.full_path, format!(r".\{name}\in it"));
            }
        }
    }
}
