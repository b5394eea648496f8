//! The journal of samples: a day on which an insurer's claims folder is set up, sorted and tidied.

use crate::record::{append, record, Key, Record, CLOSE, CREATE, DELETE, NEW_NAME, OLD_NAME, ROOT};

const DATA_EXTEND: u32 = 0x2;

/// 2024-03-04 08:00:00 as ticks of 100 nanoseconds since 1601.
const MORNING: i64 = 133_540_128_000_000_000;

const MINUTE: i64 = 600_000_000;

const CLAIMS: Key = Key(1024, 1);
const OPEN: Key = Key(1025, 1);
const YEAR: Key = Key(1026, 1);
const LETTER: Key = Key(1030, 4);
const PHOTO: Key = Key(1031, 2);
const REPORT: Key = Key(1032, 1);
const SCRATCH: Key = Key(1033, 7);
const NOTE: Key = Key(1033, 8);
const OLDER: Key = Key(612, 3);

/// The records, a minute apart; the USN of each is its offset, behind a page of zeros as a sparse journal has.
pub fn journal() -> Vec<u8> {
    let mut journal = vec![0; 512];
    for (i, record) in records().into_iter().enumerate() {
        let usn = journal.len() as i64;
        let time = MORNING + MINUTE * i as i64 + 1_234_567;
        append(&mut journal, &record.usn(usn).time(time).bytes());
    }
    journal
}

fn records() -> Vec<Record> {
    vec![
        record(CLAIMS, ROOT, CREATE, "Claims"),
        record(CLAIMS, ROOT, CREATE | CLOSE, "Claims"),
        record(OPEN, CLAIMS, CREATE | CLOSE, "New folder"),
        record(OPEN, CLAIMS, OLD_NAME, "New folder"),
        record(OPEN, CLAIMS, NEW_NAME, "Open"),
        record(OPEN, CLAIMS, NEW_NAME | CLOSE, "Open"),
        record(LETTER, OPEN, CREATE, "letter.docx"),
        record(LETTER, OPEN, CREATE | DATA_EXTEND, "letter.docx"),
        record(LETTER, OPEN, CREATE | DATA_EXTEND | CLOSE, "letter.docx"),
        record(PHOTO, OPEN, CREATE | DATA_EXTEND | CLOSE, "Straße 12 – Küche.jpg"),
        record(SCRATCH, OPEN, CREATE, "~$letter.docx"),
        record(SCRATCH, OPEN, DELETE | CLOSE, "~$letter.docx"),
        record(YEAR, CLAIMS, CREATE | CLOSE, "2024"),
        record(OPEN, CLAIMS, OLD_NAME, "Open"),
        record(OPEN, YEAR, NEW_NAME, "Settled"),
        record(OPEN, YEAR, NEW_NAME | CLOSE, "Settled"),
        record(LETTER, OPEN, DATA_EXTEND | CLOSE, "letter.docx"),
        record(REPORT, OPEN, CREATE | CLOSE, "report \u{1F4C4}.pdf"),
        record(REPORT, OPEN, OLD_NAME, "report \u{1F4C4}.pdf"),
        record(REPORT, YEAR, NEW_NAME | CLOSE, "report \u{1F4C4}.pdf"),
        record(NOTE, YEAR, CREATE | CLOSE, "note.txt"),
        record(
            Key(2000, 1),
            OLDER,
            DATA_EXTEND | CLOSE,
            "in a folder that no record names",
        ),
        record(Key(70, 0), ROOT, CREATE | CLOSE, "version 3 folder").version_3(),
        record(Key(71, 0), Key(70, 0), CREATE | CLOSE, "version 3 file").version_3(),
        record(PHOTO, OPEN, DELETE | CLOSE, "Straße 12 – Küche.jpg"),
        record(LETTER, OPEN, OLD_NAME, "letter.docx"),
        record(LETTER, ROOT, NEW_NAME | CLOSE, "letter.docx"),
        record(OPEN, YEAR, DELETE | CLOSE, "Settled"),
    ]
}
