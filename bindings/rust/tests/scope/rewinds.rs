//! Whole rewinds.

use volume_history::{parse_usn_journal, EntryInfo, EntryKey, RecordSource, RewindEngine, UsnRecord};

use crate::layout::{change, journal, Record};
use crate::paths::path;

/// The records of a journal of these.
fn records(records: &[Record]) -> Vec<UsnRecord> {
    parse_usn_journal(&journal(records)).unwrap()
}

/// The paths that a rewind gives. Every record comes back as it was, with its parent's path before its own name.
fn rewound(engine: &mut RewindEngine, records: &[UsnRecord]) -> Vec<String> {
    let resolved = engine.rewind(records);
    assert_eq!(resolved.len(), records.len());
    for (resolved, record) in resolved.iter().zip(records) {
        assert_eq!(&resolved.record, record);
        assert_eq!(
            resolved.full_path,
            format!("{}\\{}", resolved.parent_path, record.filename)
        );
        assert_eq!(resolved.source, RecordSource::Allocated);
    }
    resolved.into_iter().map(|resolved| resolved.full_path).collect()
}

#[test]
fn sources_have_labels() {
    let labels = [RecordSource::Allocated, RecordSource::Carved, RecordSource::Ghost].map(|source| source.as_str());
    assert_eq!(labels, ["allocated", "entry-carved", "ghost"]);
}

#[test]
fn no_records() {
    let mut engine = RewindEngine::new();
    assert_eq!(rewound(&mut engine, &[]), [""; 0]);
    assert_eq!(engine.lookup_len(), 0);
}

#[test]
fn a_renamed_file() {
    let records = records(&[
        change((42, 3), (5, 5), 0x1000, "a"),
        change((42, 3), (5, 5), 0x2000, "b"),
    ]);
    let mut engine = RewindEngine::new();
    assert_eq!(rewound(&mut engine, &records), [r".\a", r".\b"]);
    assert_eq!(engine.lookup_len(), 1);
    assert_eq!(path(&engine, 42, 3), r".\a");
}

#[test]
fn files_of_a_renamed_folder() {
    let records = records(&[
        change((43, 1), (42, 3), 0x100, "before"),
        change((42, 3), (5, 5), 0x1000, "a"),
        change((42, 3), (5, 5), 0x2000, "b"),
        change((44, 1), (42, 3), 0x100, "after"),
    ]);
    let mut engine = RewindEngine::new();
    assert_eq!(
        rewound(&mut engine, &records),
        [r".\a\before", r".\a", r".\b", r".\b\after"]
    );
    assert_eq!(path(&engine, 44, 1), r".\a\after");
}

#[test]
fn which_reasons_replace() {
    // The folder 40:1 is known as k; a record names it r; a file in it follows.
    for (reason, kept, shown) in [
        (0x100, "k", "r"),
        (0x200, "k", "k"),
        (0x1000, "r", "r"),
        (0x2000, "k", "r"),
        (0x8000_0002, "k", "k"),
        (0x8000_1100, "r", "r"),
    ] {
        let records = records(&[
            change((40, 1), (5, 5), reason, "r"),
            change((41, 1), (40, 1), 0x100, "f"),
        ]);
        let mut engine = RewindEngine::from_mft([(40, 1, "k".to_owned(), 5, 5)]);
        assert_eq!(rewound(&mut engine, &records)[1], format!(r".\{shown}\f"), "{reason:x}");
        assert_eq!(path(&engine, 40, 1), format!(r".\{kept}"), "{reason:x}");
        assert_eq!(engine.lookup_len(), 2);
    }
}

#[test]
fn the_first_of_several_old_names_stays() {
    let records = records(&[
        change((42, 3), (5, 5), 0x1000, "a"),
        change((42, 3), (5, 5), 0x2000, "b"),
        change((42, 3), (5, 5), 0x1000, "b"),
        change((42, 3), (7, 1), 0x2000, "c"),
    ]);
    let mut engine = RewindEngine::new();
    assert_eq!(
        rewound(&mut engine, &records),
        [r".\a", r".\b", r".\b", r"UNKNOWN(7:1)\c"]
    );
    assert_eq!(path(&engine, 42, 3), r".\a");
}

#[test]
fn the_table_is_kept_between_rewinds() {
    let first = records(&[change((40, 1), (5, 5), 0x100, "folder")]);
    let second = records(&[change((41, 1), (40, 1), 0x100, "file")]);
    let mut engine = RewindEngine::new();
    rewound(&mut engine, &first);
    assert_eq!(rewound(&mut engine, &second), [r".\folder\file"]);
    engine.insert(
        EntryKey::new(40, 1),
        EntryInfo {
            name: "inserted".to_owned(),
            parent: EntryKey::root(),
        },
    );
    assert_eq!(rewound(&mut engine, &second), [r".\inserted\file"]);
    assert_eq!(engine.lookup_len(), 2);
}

#[test]
fn depths() {
    let mut ladder: Vec<_> = (0..258_u64)
        .map(|i| {
            let parent = if i == 0 { (5, 5) } else { (999 + i, 1) };
            change((1000 + i, 1), parent, 0x100, "n")
        })
        .collect();
    ladder.push(change((9, 1), (9, 1), 0x100, "a"));
    let paths = rewound(&mut RewindEngine::new(), &records(&ladder));
    assert_eq!(paths[256], format!(".{}", r"\n".repeat(257)));
    assert_eq!(paths[257], format!("UNRESOLVED(5:5){}", r"\n".repeat(258)));
    assert_eq!(paths[258], format!("UNRESOLVED(9:1){}", r"\a".repeat(258)));
}

#[test]
fn names_that_are_hard_to_write_back() {
    let odd = Record {
        name: vec![0, 0xd8, 0x61, 0],
        ..change((43, 1), (42, 1), 0x100, "")
    };
    let third = Record {
        version: 3,
        ..change((42, 0), (43, 0), 0x100, "\u{1F600}\\")
    };
    let records = records(&[change((42, 1), (5, 5), 0x100, ""), odd, third]);
    let paths = rewound(&mut RewindEngine::new(), &records);
    assert_eq!(paths, [".\\", ".\\\\\u{fffd}a", "UNKNOWN(43:0)\\\u{1F600}\\"]);
}

#[test]
fn records_that_no_version_2_record_can_hold() {
    let small = records(&[
        change((40, 1), (5, 5), 0x100, "folder"),
        change((41, 1), (40, 1), 0x100, "file"),
    ]);
    for (entry, name) in [
        (1 << 48, "folder".to_owned()),
        (u64::MAX, "x".repeat(65535)),
        (40, "x".repeat(32739)),
    ] {
        let mut records = small.clone();
        records[0].mft_entry = entry;
        records[0].filename = name.clone();
        records[1].parent_mft_entry = entry;
        let mut engine = RewindEngine::new();
        let expected = [format!(r".\{name}"), format!(r".\{name}\file")];
        assert_eq!(rewound(&mut engine, &records), expected, "{entry}");
        assert_eq!(path(&engine, 41, 1), expected[1]);
    }
}

#[test]
fn many_records() {
    let all: Vec<_> = (0..3000)
        .map(|i| change((100 + i % 1000, 1), (5, 5), 0x8000_0002, &format!("file {}", i % 1000)))
        .collect();
    let mut engine = RewindEngine::new();
    let paths = rewound(&mut engine, &records(&all));
    assert_eq!(engine.lookup_len(), 1000);
    for (i, path) in paths.iter().enumerate() {
        assert_eq!(path, &format!(r".\file {}", i % 1000));
    }
}

#[test]
fn the_sample_journal() {
    let data = include_bytes!("../../../../samples/journal.bin");
    let listing = include_str!("../../../../samples/journal.txt");
    let expected: Vec<_> = listing
        .lines()
        .skip(1)
        .filter(|line| !line.starts_with("records "))
        .map(|line| line.splitn(11, ' ').last().unwrap())
        .collect();
    let paths = rewound(&mut RewindEngine::new(), &parse_usn_journal(data).unwrap());
    assert_eq!(paths, expected);
    assert_eq!(paths.len(), 28);
}
