//! The calls of our library that read a journal, carve an image and decode a name, over slices.
//!
//! Each call answers 0 and writes the words of its answer, or answers a refusal number and writes nothing. Slices pass
//! as a pointer and a length. The calls ask nothing of their arguments, so the wrappers are safe for any slices.

use crate::declared;

/// The words of a record, in this order. Signed fields are given by their 64 bits.
pub const FIELDS: [&str; 19] = [
    "mft_entry",
    "mft_sequence",
    "parent_mft_entry",
    "parent_mft_sequence",
    "usn",
    "seconds",
    "nanoseconds",
    "reason",
    "file_attributes",
    "source_info",
    "security_id",
    "major_version",
    "filename offset",
    "filename length",
    "record_length",
    "minor_version",
    "filetime",
    "file_reference_high",
    "parent_reference_high",
];

/// How many words a record has.
pub const WORDS: usize = FIELDS.len();

/// The word of a name's offset; its length in bytes is the next.
pub const NAME: usize = 12;

/// The words of a scan's answer.
pub const SCAN_FIELDS: [&str; 1] = ["records"];

/// The words of a carving's answer.
pub const CARVING_FIELDS: [&str; 5] = [
    "bytes_scanned",
    "candidates_examined",
    "records_carved",
    "rejected_timestamp",
    "rejected_structure",
];

/// The words of an entry carved from an image, in this order. The name's offset counts from the image's start, its
/// length is in bytes, and a flag is 0 or 1.
pub const ENTRY_FIELDS: [&str; 9] = [
    "offset",
    "entry_number",
    "sequence_number",
    "filename offset",
    "filename length",
    "parent_entry",
    "parent_sequence",
    "is_directory",
    "is_in_use",
];

/// How many words a carved entry has.
pub const ENTRY_WORDS: usize = ENTRY_FIELDS.len();

/// The word of a carved entry's name's offset; its length is the next.
pub const ENTRY_NAME: usize = 3;

/// The words of an image carving's answer.
pub const MFT_CARVING_FIELDS: [&str; 4] = ["bytes_scanned", "candidates_examined", "entries_carved", "rejected"];

/// The words of a window, in this order.
pub const READER_FIELDS: [&str; 6] = ["start", "position", "end", "held", "total", "ended"];

/// How many words a window has.
pub const READER_WORDS: usize = READER_FIELDS.len();

/// The first word of a window's answer: the end, the bytes that are wanted, or a record. Two words follow: from where
/// and how many are wanted, or the record's offset in the stream and its length; the end has 0, 0.
pub const END: u64 = 0;
pub const WANTS: u64 = 1;
pub const RECORD: u64 = 2;

/// The words of a window's longest answer, a record's: the three and those of the record.
pub const ANSWER_WORDS: usize = 3 + WORDS;

/// The length that a window's buffer must have.
pub const BUF_SIZE: usize = 65536;

/// The largest slice that is read.
pub const DOMAIN: usize = 1_073_741_824;

/// The longest stream that a window reads.
pub const STREAM_DOMAIN: u64 = 1_099_511_627_776;

// The numbers of the scope's refusals; 0 is no refusal.
pub const ACCEPTED: u32 = 0;
pub const ABOVE_DOMAIN: u32 = 1;
pub const TOO_SHORT: u32 = 2;
pub const LENGTH_OUTSIDE: u32 = 3;
pub const LENGTH_PAST_SLICE: u32 = 4;
pub const NO_ROOM: u32 = 5;
pub const TABLE_FULL: u32 = 6;
pub const NAME_OUTSIDE: u32 = 7;
pub const TEXT_TOO_SMALL: u32 = 8;
pub const BAD_NUMBERS: u32 = 9;
pub const TOO_MANY_BYTES: u32 = 10;
pub const BAD_BUFFER: u32 = 11;
pub const NOT_LISTED: u32 = 12;

/// The version 2 record that `data` begins with.
pub fn usn_parse_record_v2(data: &[u8], words: &mut [u64]) -> u32 {
    // SAFETY: both slices are readable over their lengths, `words` is writable, and they do not overlap.
    unsafe { declared::usn_parse_record_v2(data.as_ptr(), data.len(), words.as_mut_ptr(), words.len()) }
}

/// The version 3 record that `data` begins with.
pub fn usn_parse_record_v3(data: &[u8], words: &mut [u64]) -> u32 {
    // SAFETY: as above.
    unsafe { declared::usn_parse_record_v3(data.as_ptr(), data.len(), words.as_mut_ptr(), words.len()) }
}

/// The record at `offset` of an extract, which may be any number; the name's place counts from the record.
pub fn usn_listed_record(data: &[u8], offset: usize, words: &mut [u64]) -> u32 {
    // SAFETY: as above.
    unsafe { declared::usn_listed_record(data.as_ptr(), data.len(), offset, words.as_mut_ptr(), words.len()) }
}

/// The places of an extract's records, two words of `list` each, offset and length; `out` takes the `SCAN_FIELDS`.
pub fn usn_parse_journal(extract: &[u8], list: &mut [usize], out: &mut [u64]) -> u32 {
    let (lists, words) = (list.as_mut_ptr(), out.as_mut_ptr());
    // SAFETY: the slices are readable over their lengths, the mutable ones are writable, and none overlap.
    unsafe { declared::usn_parse_journal(extract.as_ptr(), extract.len(), lists, list.len(), words, out.len()) }
}

/// The places of the records carved from an extract, as above; `out` takes the `CARVING_FIELDS`.
pub fn usn_carve_records(extract: &[u8], list: &mut [usize], out: &mut [u64]) -> u32 {
    let (lists, words) = (list.as_mut_ptr(), out.as_mut_ptr());
    // SAFETY: as above.
    unsafe { declared::usn_carve_records(extract.as_ptr(), extract.len(), lists, list.len(), words, out.len()) }
}

/// A window over a stream of `total` bytes; `reader` takes the `READER_FIELDS`.
pub fn usn_reader_new(total: u64, reader: &mut [u64]) -> u32 {
    // SAFETY: as above.
    unsafe { declared::usn_reader_new(total, reader.as_mut_ptr(), reader.len()) }
}

/// The next record of a window, the bytes that it wants first, or the end, as words of `out`. A record's name's place
/// counts from the start of the buffer.
pub fn usn_reader_next(reader: &mut [u64], buffer: &[u8], out: &mut [u64]) -> u32 {
    let (numbers, words) = (reader.as_mut_ptr(), out.as_mut_ptr());
    // SAFETY: as above.
    unsafe { declared::usn_reader_next(numbers, reader.len(), buffer.as_ptr(), buffer.len(), words, out.len()) }
}

/// Gives a window the next bytes of its stream, which go into the buffer; `out` takes what it still wants, or the end.
pub fn usn_reader_give(reader: &mut [u64], buffer: &mut [u8], bytes: &[u8], out: &mut [u64]) -> u32 {
    let (numbers, words) = (reader.as_mut_ptr(), out.as_mut_ptr());
    // SAFETY: as above.
    unsafe {
        declared::usn_reader_give(
            numbers,
            reader.len(),
            buffer.as_mut_ptr(),
            buffer.len(),
            bytes.as_ptr(),
            bytes.len(),
            words,
            out.len(),
        )
    }
}

/// The entries carved from an image, `ENTRY_WORDS` words of `list` each; `out` takes the `MFT_CARVING_FIELDS`.
pub fn mft_carve_entries(image: &[u8], list: &mut [u64], out: &mut [u64]) -> u32 {
    let (lists, words) = (list.as_mut_ptr(), out.as_mut_ptr());
    // SAFETY: as above.
    unsafe { declared::mft_carve_entries(image.as_ptr(), image.len(), lists, list.len(), words, out.len()) }
}

/// The UTF-16 of `bytes`, little endian, as UTF-8 at the front of `text`; `out` takes its length in bytes.
pub fn utf16_decode(bytes: &[u8], text: &mut [u8], out: &mut [u64]) -> u32 {
    let (texts, words) = (text.as_mut_ptr(), out.as_mut_ptr());
    // SAFETY: as above.
    unsafe { declared::utf16_decode(bytes.as_ptr(), bytes.len(), texts, text.len(), words, out.len()) }
}
