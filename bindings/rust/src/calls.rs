//! The calls of `libvolume_history.a` over slices, and the only `unsafe` of this crate; `include/` has a paragraph for each call.
//!
//! A call answers 0 and writes the words of its answer, or answers a refusal's number and writes nothing. It asks nothing of the
//! numbers and bytes that it is lent, so each function here is safe for any slices: what C has to be promised, that pointers are
//! valid over their counts and that what is written overlaps nothing else, Rust's references promise.

use crate::declared;

/// How many words a record has.
pub const RECORD_WORDS: usize = 19;

/// How many words a window has.
pub const READER_WORDS: usize = 6;

/// The most words that a window's answer takes, and its first word.
pub const READING_WORDS: usize = 3 + RECORD_WORDS;
pub const READING_END: u64 = 0;
pub const READING_WANTS: u64 = 1;

/// The length of a window's buffer.
pub const WINDOW_BYTES: usize = 65536;

/// A slice with no bytes, and a source that is the image.
const NO_BYTES: &[u8] = &[];
const IMAGE_SOURCE: u64 = 1;

/// How many words a carved MFT entry has.
pub const ENTRY_WORDS: usize = 9;

/// How many words a slot of a table has, and the words of its name's place. A source of 0 is the journal.
pub const SLOT_WORDS: usize = 7;
pub const SLOT_NAME_SOURCE: usize = 4;
pub const SLOT_NAME_OFFSET: usize = 5;
pub const SLOT_NAME_LENGTH: usize = 6;

/// Words for the index of a table, which the calls that want it fill. They may hold anything.
pub struct Index {
    heads: Vec<u64>,
    nexts: Vec<u64>,
}

impl Index {
    /// Room for the index of so many slots.
    pub fn for_slots(slots: usize) -> Self {
        Self {
            heads: vec![0; slots.max(1)],
            nexts: vec![0; slots],
        }
    }
}

/// The version 2 record that `data` begins with.
pub fn usn_parse_record_v2(data: &[u8], words: &mut [u64; RECORD_WORDS]) -> u32 {
    // SAFETY: both slices are valid over their lengths, and `words`, which is written, is lent to this call alone.
    unsafe { declared::usn_parse_record_v2(data.as_ptr(), data.len(), words.as_mut_ptr(), words.len()) }
}

/// The version 3 record that `data` begins with.
pub fn usn_parse_record_v3(data: &[u8], words: &mut [u64; RECORD_WORDS]) -> u32 {
    // SAFETY: both slices are valid over their lengths, and `words`, which is written, is lent to this call alone.
    unsafe { declared::usn_parse_record_v3(data.as_ptr(), data.len(), words.as_mut_ptr(), words.len()) }
}

/// The record at `offset` of an extract, which may be any number; the name's place counts from the record.
pub fn usn_listed_record(extract: &[u8], offset: usize, words: &mut [u64; RECORD_WORDS]) -> u32 {
    // SAFETY: both slices are valid over their lengths, and `words`, which is written, is lent to this call alone.
    unsafe { declared::usn_listed_record(extract.as_ptr(), extract.len(), offset, words.as_mut_ptr(), words.len()) }
}

/// The offset and the length of each record of an extract, and how many they are.
pub fn usn_parse_journal(extract: &[u8], list: &mut [usize], out: &mut [u64; 1]) -> u32 {
    // SAFETY: the slices are valid over their lengths, and `list` and `out`, which are written, are lent to this call alone.
    unsafe {
        declared::usn_parse_journal(
            extract.as_ptr(),
            extract.len(),
            list.as_mut_ptr(),
            list.len(),
            out.as_mut_ptr(),
            out.len(),
        )
    }
}

/// The offset and the length of each record in raw bytes, and the five counters.
pub fn usn_carve_records(extract: &[u8], list: &mut [usize], out: &mut [u64; 5]) -> u32 {
    // SAFETY: the slices are valid over their lengths, and `list` and `out`, which are written, are lent to this call alone.
    unsafe {
        declared::usn_carve_records(
            extract.as_ptr(),
            extract.len(),
            list.as_mut_ptr(),
            list.len(),
            out.as_mut_ptr(),
            out.len(),
        )
    }
}

/// A window over a stream of `total` bytes.
pub fn usn_reader_new(total: u64, reader: &mut [u64; READER_WORDS]) -> u32 {
    // SAFETY: `reader`, which is written, is valid over its length and lent to this call alone.
    unsafe { declared::usn_reader_new(total, reader.as_mut_ptr(), reader.len()) }
}

/// The next record of a window, the bytes that it wants first, or the end. A name's place counts from the buffer's start.
pub fn usn_reader_next(reader: &mut [u64; READER_WORDS], buffer: &[u8], out: &mut [u64; READING_WORDS]) -> u32 {
    // SAFETY: the slices are valid over their lengths, and `reader` and `out`, which are written, are lent to this call alone.
    unsafe {
        declared::usn_reader_next(
            reader.as_mut_ptr(),
            reader.len(),
            buffer.as_ptr(),
            buffer.len(),
            out.as_mut_ptr(),
            out.len(),
        )
    }
}

/// Gives a window the next bytes of its stream, which go into the buffer.
pub fn usn_reader_give(
    reader: &mut [u64; READER_WORDS],
    buffer: &mut [u8],
    bytes: &[u8],
    out: &mut [u64; READING_WORDS],
) -> u32 {
    // SAFETY: the slices are valid over their lengths, and `reader`, `buffer` and `out`, which are written, are lent to this
    // call alone.
    unsafe {
        declared::usn_reader_give(
            reader.as_mut_ptr(),
            reader.len(),
            buffer.as_mut_ptr(),
            buffer.len(),
            bytes.as_ptr(),
            bytes.len(),
            out.as_mut_ptr(),
            out.len(),
        )
    }
}

/// The entries of an image, `ENTRY_WORDS` words each, and the four counters.
pub fn mft_carve_entries(image: &[u8], list: &mut [u64], out: &mut [u64; 4]) -> u32 {
    // SAFETY: the slices are valid over their lengths, and `list` and `out`, which are written, are lent to this call alone.
    unsafe {
        declared::mft_carve_entries(
            image.as_ptr(),
            image.len(),
            list.as_mut_ptr(),
            list.len(),
            out.as_mut_ptr(),
            out.len(),
        )
    }
}

/// The UTF-16 of `bytes` as UTF-8 at the front of `text`, and how many bytes that is.
pub fn utf16_decode(bytes: &[u8], text: &mut [u8], out: &mut [u64; 1]) -> u32 {
    // SAFETY: the slices are valid over their lengths, and `text` and `out`, which are written, are lent to this call alone.
    unsafe {
        declared::utf16_decode(
            bytes.as_ptr(),
            bytes.len(),
            text.as_mut_ptr(),
            text.len(),
            out.as_mut_ptr(),
            out.len(),
        )
    }
}

/// The name at a place of an image as UTF-8 at the front of `text`, and how many bytes that is. Where the place lies in an entry
/// with a sound array, the name is the one with the true sector ends.
pub fn path_decode(image: &[u8], [offset, length]: [u64; 2], text: &mut [u8], out: &mut [u64; 1]) -> u32 {
    // SAFETY: the slices are valid over their lengths, and `text` and `out`, which are written, are lent to this call alone.
    unsafe {
        declared::path_decode(
            NO_BYTES.as_ptr(),
            NO_BYTES.len(),
            image.as_ptr(),
            image.len(),
            IMAGE_SOURCE,
            offset,
            length,
            text.as_mut_ptr(),
            text.len(),
            out.as_mut_ptr(),
            out.len(),
        )
    }
}

// The calls below know two slices of names, the journal's and the image's. This crate keeps all names in one slice and lends it as
// the journal, whose bytes are decoded as they are. It is no image: a name in it could look like an MFT entry, and would then be
// decoded with other bytes at its sector ends. So the image is empty, but for seeding, which takes names from no other slice and
// decodes none; the slots that it fills are given the source 0.

/// The entry of these words into a table, in place of a known one, and the used slots after it.
pub fn table_insert(names: &[u8], slots: &mut [u64], used: usize, slot: &[u64; SLOT_WORDS], out: &mut [u64; 1]) -> u32 {
    let [entry, sequence, parent_entry, parent_sequence, source, offset, length] = *slot;
    // SAFETY: the slices are valid over their lengths, and `slots` and `out`, which are written, are lent to this call alone.
    unsafe {
        declared::table_insert(
            names.as_ptr(),
            names.len(),
            NO_BYTES.as_ptr(),
            NO_BYTES.len(),
            slots.as_mut_ptr(),
            slots.len(),
            used,
            entry,
            sequence,
            parent_entry,
            parent_sequence,
            source,
            offset,
            length,
            out.as_mut_ptr(),
            out.len(),
        )
    }
}

/// The same where the key is new.
pub fn table_insert_if_absent(
    names: &[u8],
    slots: &mut [u64],
    used: usize,
    slot: &[u64; SLOT_WORDS],
    out: &mut [u64; 1],
) -> u32 {
    let [entry, sequence, parent_entry, parent_sequence, source, offset, length] = *slot;
    // SAFETY: the slices are valid over their lengths, and `slots` and `out`, which are written, are lent to this call alone.
    unsafe {
        declared::table_insert_if_absent(
            names.as_ptr(),
            names.len(),
            NO_BYTES.as_ptr(),
            NO_BYTES.len(),
            slots.as_mut_ptr(),
            slots.len(),
            used,
            entry,
            sequence,
            parent_entry,
            parent_sequence,
            source,
            offset,
            length,
            out.as_mut_ptr(),
            out.len(),
        )
    }
}

/// The carved entries, `ENTRY_WORDS` words each, under those of their keys that are new, and the used slots after it. The names of
/// the slots that are filled have the image's source.
pub fn table_seed_indexed(
    names: &[u8],
    slots: &mut [u64],
    used: usize,
    entries: &[u64],
    index: &mut Index,
    out: &mut [u64; 1],
) -> u32 {
    // SAFETY: the slices are valid over their lengths, and `slots`, those of `index` and `out`, which are written, are lent to this
    // call alone.
    unsafe {
        declared::table_seed_indexed(
            names.as_ptr(),
            names.len(),
            names.as_ptr(),
            names.len(),
            slots.as_mut_ptr(),
            slots.len(),
            used,
            entries.as_ptr(),
            entries.len(),
            index.heads.as_mut_ptr(),
            index.heads.len(),
            index.nexts.as_mut_ptr(),
            index.nexts.len(),
            out.as_mut_ptr(),
            out.len(),
        )
    }
}

/// The text of a key's path, and as the last word how many bytes it has. The places of its names are not asked for.
pub fn path_resolve(
    names: &[u8],
    slots: &[u64],
    used: usize,
    [entry, sequence]: [u64; 2],
    text: &mut [u8],
    out: &mut [u64; 5],
) -> u32 {
    let chain: &mut [u64] = &mut [];
    // SAFETY: the slices are valid over their lengths, and `chain`, `text` and `out`, which are written, are lent to this call
    // alone.
    unsafe {
        declared::path_resolve(
            names.as_ptr(),
            names.len(),
            NO_BYTES.as_ptr(),
            NO_BYTES.len(),
            slots.as_ptr(),
            slots.len(),
            used,
            entry,
            sequence,
            chain.as_mut_ptr(),
            chain.len(),
            text.as_mut_ptr(),
            text.len(),
            out.as_mut_ptr(),
            out.len(),
        )
    }
}

/// The start of a rewind over listed records: they go into the table of `slots`, which is copied to the front of `forward`.
pub fn rewind_start_indexed(
    names: &[u8],
    records: &[usize],
    slots: &mut [u64],
    used: usize,
    forward: &mut [u64],
    index: &mut Index,
    out: &mut [u64; 2],
) -> u32 {
    // SAFETY: the slices are valid over their lengths, and `slots`, `forward`, those of `index` and `out`, which are written, are
    // lent to this call alone.
    unsafe {
        declared::rewind_start_indexed(
            names.as_ptr(),
            names.len(),
            NO_BYTES.as_ptr(),
            NO_BYTES.len(),
            records.as_ptr(),
            records.len(),
            slots.as_mut_ptr(),
            slots.len(),
            used,
            forward.as_mut_ptr(),
            forward.len(),
            index.heads.as_mut_ptr(),
            index.heads.len(),
            index.nexts.as_mut_ptr(),
            index.nexts.len(),
            out.as_mut_ptr(),
            out.len(),
        )
    }
}

/// What a run writes paths to: where each ends, and their bytes, one behind the other.
pub struct Texts<'a> {
    pub ends: &'a mut [u64],
    pub text: &'a mut [u8],
}

/// As many steps over the listed records as `ends` has words: each record goes into `forward`, its path behind those before it in
/// `text`, and where it ends to `ends`. The words of `state`, the used slots and the records behind, come in and are those after
/// the last step. The words of `out` are the steps, 0 or what stopped it before the next one, 6 or 8, and the state again. Refused
/// with nothing written for 1, 5, 9, 12 and 7.
pub fn rewind_run(
    names: &[u8],
    records: &[usize],
    state: [usize; 2],
    forward: &mut [u64],
    index: &mut Index,
    Texts { ends, text }: Texts,
    out: &mut [u64; 4],
) -> u32 {
    let [used, position] = state;
    // SAFETY: the slices are valid over their lengths, and `forward`, those of `index`, `ends`, `text` and `out`, which are written,
    // are lent to this call alone.
    unsafe {
        declared::rewind_run(
            names.as_ptr(),
            names.len(),
            NO_BYTES.as_ptr(),
            NO_BYTES.len(),
            records.as_ptr(),
            records.len(),
            used,
            position,
            forward.as_mut_ptr(),
            forward.len(),
            index.heads.as_mut_ptr(),
            index.heads.len(),
            index.nexts.as_mut_ptr(),
            index.nexts.len(),
            ends.as_mut_ptr(),
            ends.len(),
            text.as_mut_ptr(),
            text.len(),
            out.as_mut_ptr(),
            out.len(),
        )
    }
}
