//! The record parsers.

use volume_history::{
    parse_usn_record_v2, parse_usn_record_v3, FileAttributes, NtfsError, Result, Timestamp, UsnReason, UsnRecord,
    MAX_SLICE,
};

use crate::layout::{e, reference, utf16, Record};

/// The number that a parser refuses with, or 0.
pub fn refusal<T>(result: Result<T>) -> u32 {
    match result {
        Ok(_) => 0,
        Err(NtfsError::Usn(refusal)) => refusal.number(),
        Err(NtfsError::Io(error)) => panic!("{error}"),
    }
}

/// E as the parser gives it.
pub fn parsed_e() -> UsnRecord {
    UsnRecord {
        mft_entry: 42,
        mft_sequence: 3,
        parent_mft_entry: 5,
        parent_mft_sequence: 5,
        usn: 4096,
        timestamp: Timestamp {
            seconds: 946_684_800,
            nanoseconds: 0,
        },
        reason: UsnReason::FILE_CREATE,
        filename: "ab".to_owned(),
        file_attributes: FileAttributes::ARCHIVE,
        source_info: 0,
        security_id: 0,
        major_version: 2,
    }
}

#[test]
fn e_has_its_fields() {
    let bytes = e().bytes();
    assert_eq!(bytes.len(), 64);
    assert_eq!(parse_usn_record_v2(&bytes).unwrap(), parsed_e());
}

#[test]
fn every_field_is_read_in_both_versions() {
    let record = Record {
        file: reference(0xffff_ffff_ffff, 0xffff),
        parent: reference(0x1234_5678_9abc, 0x8001),
        usn: -2,
        time: 116_444_736_012_345_678,
        reason: 0xffff_ffff,
        source: 0x8000_0001,
        security: 0x0102_0304,
        attributes: 0xf000_000f,
        name: utf16("Straße \u{1F4C4}"),
        ..e()
    };
    let second = UsnRecord {
        mft_entry: 0xffff_ffff_ffff,
        mft_sequence: 0xffff,
        parent_mft_entry: 0x1234_5678_9abc,
        parent_mft_sequence: 0x8001,
        usn: -2,
        timestamp: Timestamp {
            seconds: 1,
            nanoseconds: 234_567_800,
        },
        reason: UsnReason::from_bits_retain(0xffff_ffff),
        filename: "Straße \u{1F4C4}".to_owned(),
        file_attributes: FileAttributes::from_bits_retain(0xf000_000f),
        source_info: 0x8000_0001,
        security_id: 0x0102_0304,
        major_version: 2,
    };
    assert_eq!(parse_usn_record_v2(&record.bytes()).unwrap(), second);
    let third = UsnRecord {
        mft_sequence: 0,
        parent_mft_sequence: 0,
        major_version: 3,
        ..second
    };
    let bytes = Record { version: 3, ..record }.bytes();
    assert_eq!(parse_usn_record_v3(&bytes).unwrap(), third);
}

#[test]
fn p2_times() {
    let times = [
        (116_444_735_999_999_999, 0, 0),
        (116_444_736_000_000_000, 0, 0),
        (i64::MAX, 910_692_730_085, 477_580_700),
        (-1, 0, 0),
        (i64::MIN, 0, 0),
    ];
    for (time, seconds, nanoseconds) in times {
        let expected = Timestamp { seconds, nanoseconds };
        let second = parse_usn_record_v2(&Record { time, ..e() }.bytes()).unwrap().timestamp;
        assert_eq!(second, expected, "{time}");
        assert_eq!(
            (second.timestamp(), second.timestamp_subsec_nanos()),
            (seconds, nanoseconds)
        );
        let bytes = Record {
            time,
            version: 3,
            ..e()
        }
        .bytes();
        assert_eq!(parse_usn_record_v3(&bytes).unwrap().timestamp, expected, "{time}");
    }
}

#[test]
fn p3_lengths() {
    let nameless = |version, length| {
        let record = Record {
            version,
            length: Some(length),
            name: Vec::new(),
            ..e()
        };
        record.bytes()
    };
    for (length, number) in [(0, 3), (59, 3), (60, 0), (61, 4), (65536, 4), (65537, 3)] {
        assert_eq!(
            refusal(parse_usn_record_v2(&nameless(2, length))),
            number,
            "version 2, length {length}"
        );
    }
    for (length, number) in [(0, 3), (75, 3), (76, 0), (77, 0), (65536, 0), (65537, 3)] {
        assert_eq!(
            refusal(parse_usn_record_v3(&nameless(3, length))),
            number,
            "version 3, length {length}"
        );
    }
    assert_eq!(refusal(parse_usn_record_v2(&nameless(2, 59)[..59])), 2);
    assert_eq!(refusal(parse_usn_record_v3(&nameless(3, 75)[..75])), 2);
    assert_eq!(refusal(parse_usn_record_v2(&[])), 2);
    assert_eq!(refusal(parse_usn_record_v3(&[])), 2);
}

#[test]
fn slices_above_the_domain_are_refused_first() {
    let mut data = vec![0; MAX_SLICE + 1];
    assert_eq!(refusal(parse_usn_record_v2(&data)), 1);
    assert_eq!(refusal(parse_usn_record_v3(&data)), 1);
    data.pop();
    assert_eq!(refusal(parse_usn_record_v2(&data)), 3);
    assert_eq!(refusal(parse_usn_record_v3(&data)), 3);
}

#[test]
fn a_name_is_bounded_by_the_slice_and_not_by_the_record() {
    let record = Record {
        length: Some(60),
        ..e()
    };
    assert_eq!(parse_usn_record_v2(&record.bytes()).unwrap().filename, "ab");
    assert_eq!(parse_usn_record_v2(&record.bytes()[..63]).unwrap().filename, "");
    let first_units = Record {
        name_offset: Some(0),
        ..e()
    };
    assert_eq!(parse_usn_record_v2(&first_units.bytes()).unwrap().filename, "@\0");
}

#[test]
fn short_and_odd_names() {
    for (length, name) in [(0, ""), (1, ""), (2, "a"), (3, "a"), (4, "ab"), (5, "")] {
        let record = Record {
            name_length: Some(length),
            ..e()
        };
        assert_eq!(
            parse_usn_record_v2(&record.bytes()).unwrap().filename,
            name,
            "length {length}"
        );
    }
}

#[test]
fn p10_surrogates() {
    let names: [(&[u16], &[u8]); 5] = [
        (&[0xd800], &[0xef, 0xbf, 0xbd]),
        (&[0xd83d, 0xde00], &[0xf0, 0x9f, 0x98, 0x80]),
        (&[0xde00, 0xd83d], &[0xef, 0xbf, 0xbd, 0xef, 0xbf, 0xbd]),
        (&[0xd83d, 0xd83d, 0xde00], &[0xef, 0xbf, 0xbd, 0xf0, 0x9f, 0x98, 0x80]),
        (&[0xdc00, 0x61], &[0xef, 0xbf, 0xbd, 0x61]),
    ];
    for (units, text) in names {
        let record = Record {
            name: units.iter().flat_map(|unit| unit.to_le_bytes()).collect(),
            ..e()
        };
        assert_eq!(parse_usn_record_v2(&record.bytes()).unwrap().filename.as_bytes(), text);
    }
}

#[test]
fn reasons_and_attributes_are_sets_of_bits() {
    let both = UsnReason::RENAME_OLD_NAME | UsnReason::CLOSE;
    assert_eq!(both.bits(), 0x8000_1000);
    assert!(both.contains(UsnReason::CLOSE) && both.contains(both) && both.contains(UsnReason::empty()));
    assert!(!UsnReason::CLOSE.contains(both) && UsnReason::CLOSE.intersects(both));
    assert!((both & UsnReason::FILE_CREATE).is_empty());
    let folder = FileAttributes::DIRECTORY | FileAttributes::HIDDEN;
    assert!(folder.contains(FileAttributes::DIRECTORY) && !folder.contains(FileAttributes::ARCHIVE));
    assert_eq!(folder.bits(), 0x12);
}

#[test]
fn errors_say_what_was_refused() {
    let error = parse_usn_record_v2(&[]).unwrap_err();
    assert_eq!(
        error.to_string(),
        "the data is shorter than the record's fixed part (refusal 2)"
    );
}
