//! The scan of a whole journal.

use volume_history::{list_usn_journal, parse_usn_journal, MAX_SLICE};

use crate::layout::{e, header, journal, Record};
use crate::records::{parsed_e, refusal};

/// The offsets of a journal's records. The records without their offsets are the same.
pub fn offsets(data: &[u8]) -> Vec<usize> {
    let listed = list_usn_journal(data).unwrap();
    let records: Vec<_> = listed.iter().map(|listed| listed.record.clone()).collect();
    assert_eq!(parse_usn_journal(data).unwrap(), records);
    listed.iter().map(|listed| listed.offset).collect()
}

#[test]
fn p1_an_empty_extract_has_no_records() {
    assert_eq!(parse_usn_journal(&[]).unwrap(), []);
}

#[test]
fn e_is_listed() {
    assert_eq!(parse_usn_journal(&e().bytes()).unwrap(), [parsed_e()]);
    assert_eq!(offsets(&e().bytes()), [0]);
}

#[test]
fn records_stand_at_multiples_of_8() {
    let third = Record { version: 3, ..e() };
    let odd = Record {
        length: Some(65),
        ..e()
    };
    let mut data = journal(&[e(), third]);
    data.extend(odd.bytes());
    data.resize(64 + 80 + 72, 0);
    data.extend(e().bytes());
    assert_eq!(offsets(&data), [0, 64, 144, 216]);
}

#[test]
fn zero_words_are_passed() {
    for words in 0..20 {
        let mut data = vec![0; 8 * words];
        data.extend(e().bytes());
        assert_eq!(offsets(&data), [8 * words]);
    }
    assert_eq!(offsets(&[0; 4095]), []);
}

#[test]
fn p4_a_short_length_moves_the_scan_by_8() {
    let data = [header(48, 9), e().bytes()].concat();
    assert_eq!(offsets(&data), [8]);
}

#[test]
fn p5_a_length_past_the_end_stops_the_scan() {
    let data = [header(96, 2), e().bytes()].concat();
    assert_eq!(offsets(&data), []);
    assert_eq!(offsets(&[e().bytes(), data].concat()), [0]);
}

#[test]
fn lengths_that_no_record_has_move_the_scan_by_8() {
    for (length, version) in [
        (55, 2),
        (56, 2),
        (59, 2),
        (60, 3),
        (75, 3),
        (65537, 2),
        (64, 1),
        (64, 5),
        (64, 9),
        (64, 0),
    ] {
        let data = [header(length, version), e().bytes(), vec![0; 64]].concat();
        assert_eq!(offsets(&data), [8], "length {length}, version {version}");
    }
}

#[test]
fn version_4_is_passed_whole() {
    let mut data = header(128, 4);
    data.resize(64, 0);
    data.extend(e().bytes());
    data.extend(e().bytes());
    assert_eq!(offsets(&data), [128]);
}

#[test]
fn the_scan_hands_over_the_record_alone() {
    let record = Record {
        length: Some(60),
        ..e()
    };
    assert_eq!(parse_usn_journal(&record.bytes()).unwrap()[0].filename, "");
}

#[test]
fn many_records() {
    let data = journal(&vec![e(); 10_000]);
    let expected: Vec<_> = (0..10_000).map(|i| 64 * i).collect();
    assert_eq!(offsets(&data), expected);
    assert_eq!(offsets(&data[..data.len() - 1]), expected[..9_999]);
}

#[test]
fn extracts_above_the_domain_are_refused() {
    let data = vec![0; MAX_SLICE + 1];
    assert_eq!(refusal(parse_usn_journal(&data)), 1);
    assert_eq!(refusal(list_usn_journal(&data)), 1);
}
