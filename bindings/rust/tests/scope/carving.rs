//! Records in raw bytes.

use volume_history::{carve_usn_records, try_carve_usn_records, CarvingStats, MAX_SLICE};

use crate::layout::{e, header, Record};
use crate::records::{parsed_e, refusal};

/// The ends of the range of times.
const EARLIEST: i64 = 125_911_584_000_000_000;
const LATEST: i64 = 135_379_776_000_000_000;

/// The offsets of the carved records; the counters are these: candidates, rejected for time, for structure.
fn carved(data: &[u8], counters: [u64; 3]) -> Vec<usize> {
    let (records, stats) = carve_usn_records(data);
    let [candidates_examined, rejected_timestamp, rejected_structure] = counters;
    let expected = CarvingStats {
        bytes_scanned: data.len(),
        candidates_examined,
        records_carved: records.len(),
        rejected_timestamp,
        rejected_structure,
    };
    assert_eq!(stats, expected);
    assert_eq!(try_carve_usn_records(data).unwrap(), (records.clone(), stats));
    records.iter().map(|record| record.offset).collect()
}

#[test]
fn p1_an_empty_extract_has_all_counts_0() {
    assert_eq!(carved(&[], [0, 0, 0]), []);
    assert_eq!(carve_usn_records(&[]).1, CarvingStats::default());
}

#[test]
fn p5_the_carver_finds_what_the_scan_does_not() {
    let data = [header(96, 2), e().bytes()].concat();
    assert_eq!(carved(&data, [1, 0, 0]), [8]);
    assert_eq!(carve_usn_records(&data).0[0].record, parsed_e());
}

#[test]
fn p6_times() {
    for version in [2, 3] {
        for (time, rejected) in [
            (EARLIEST - 1, 1),
            (EARLIEST, 0),
            (LATEST, 0),
            (LATEST + 1, 1),
            (-1, 1),
            (0, 1),
        ] {
            let record = Record { version, time, ..e() };
            assert_eq!(
                carved(&record.bytes(), [1, rejected, 0]).len() as u64,
                1 - rejected,
                "{time}"
            );
        }
    }
}

#[test]
fn p6_structure_is_tested_before_the_time() {
    let record = Record {
        name_offset: Some(58),
        time: 0,
        ..e()
    };
    assert_eq!(carved(&record.bytes(), [1, 0, 1]), []);
}

#[test]
fn names_that_are_rejected() {
    for (version, fixed) in [(2, 60), (3, 76)] {
        for (length, offset) in [
            (0, fixed),
            (1, fixed),
            (3, fixed),
            (6, fixed),
            (2, fixed - 2),
            (2, fixed + 2),
        ] {
            let record = Record {
                version,
                name_length: Some(length),
                name_offset: Some(offset),
                ..e()
            };
            assert_eq!(carved(&record.bytes(), [1, 0, 1]), [], "length {length} at {offset}");
        }
    }
}

#[test]
fn a_rejected_candidate_moves_the_carver_by_8() {
    let rejected = Record {
        length: Some(128),
        time: 0,
        ..e()
    };
    let data = [rejected.bytes(), e().bytes()].concat();
    assert_eq!(carved(&data, [2, 1, 0]), [64]);
}

#[test]
fn a_carved_record_is_passed_whole() {
    let outer = Record {
        length: Some(128),
        ..e()
    };
    let data = [outer.bytes(), e().bytes(), e().bytes()].concat();
    assert_eq!(carved(&data, [2, 0, 0]), [0, 128]);
}

#[test]
fn what_stands_at_no_multiple_of_8_is_unseen() {
    for shift in 0..16 {
        let data = [vec![0; shift], e().bytes()].concat();
        let (candidates, offsets) = if shift % 8 == 0 { (1, vec![shift]) } else { (0, vec![]) };
        assert_eq!(carved(&data, [candidates, 0, 0]), offsets);
    }
}

#[test]
fn extracts_above_the_domain_are_refused() {
    assert_eq!(refusal(try_carve_usn_records(&vec![0; MAX_SLICE + 1])), 1);
}

#[test]
#[should_panic(expected = "longer than the library takes")]
fn the_call_without_a_result_panics_there() {
    carve_usn_records(&vec![0; MAX_SLICE + 1]);
}
