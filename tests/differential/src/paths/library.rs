//! The calls of our library on tables and paths, over slices.
//!
//! As everywhere, a call answers 0 and writes the words of its answer, or answers a refusal number and writes nothing.
//! The calls ask nothing of their arguments, so the wrappers are safe for any slices.

use crate::declared::{self, CarvedMftEntry, Seeded};

/// The words of a table's slot, in this order. The source is 0 for the journal and any other number for the image.
pub const SLOT_FIELDS: [&str; 7] = [
    "entry",
    "sequence",
    "parent entry",
    "parent sequence",
    "name source",
    "name offset",
    "name length",
];

/// How many words a slot has.
pub const SLOT_WORDS: usize = SLOT_FIELDS.len();

/// The words of a place in a chain: source, offset and length.
pub const PLACE_WORDS: usize = 3;

/// The words of an answer of the table: the used slots.
pub const TABLE_FIELDS: [&str; 1] = ["used"];

/// The words of a path's answer; that of a chain alone lacks the last.
pub const PATH_FIELDS: [&str; 5] = ["names", "end", "end's entry", "end's sequence", "text length"];

/// The words of a chain's answer.
pub const CHAIN_WORDS: usize = PATH_FIELDS.len() - 1;

/// The second word of a path's answer: what its names hang under. The root has 0, 0 for the key.
pub const ROOT: u64 = 0;
pub const UNKNOWN: u64 = 1;
pub const UNRESOLVED: u64 = 2;

/// The bytes that names lie in: source 0 is the journal, any other the image.
#[derive(Debug, Clone, Copy)]
pub struct Sources<'a> {
    pub journal: &'a [u8],
    pub image: &'a [u8],
}

/// A table's words, lent for reading, and how many slots are used.
#[derive(Debug, Clone, Copy)]
pub struct Slots<'a> {
    pub words: &'a [u64],
    pub used: usize,
}

/// A key, and a name's place, as the words that a call takes.
pub type Key = [u64; 2];
pub type Place = [u64; PLACE_WORDS];

/// The entry of these words under its key, in place of a known one; `out` takes the `TABLE_FIELDS`.
pub fn table_insert(names: Sources, slots: &mut [u64], used: usize, slot: &[u64; SLOT_WORDS], out: &mut [u64]) -> u32 {
    let [entry, sequence, parent_entry, parent_sequence, source, offset, length] = *slot;
    // SAFETY: the slices are readable over their lengths, the mutable ones are writable, and none overlap.
    unsafe {
        declared::table_insert(
            names.journal.as_ptr(),
            names.journal.len(),
            names.image.as_ptr(),
            names.image.len(),
            slots.as_mut_ptr(),
            slots.len(),
            used,
            entry,
            sequence,
            parent_entry,
            parent_sequence,
            source,
            offset,
            length,
            out.as_mut_ptr(),
            out.len(),
        )
    }
}

/// The same where the key is new; a known entry stays.
pub fn table_insert_if_absent(
    names: Sources,
    slots: &mut [u64],
    used: usize,
    slot: &[u64; SLOT_WORDS],
    out: &mut [u64],
) -> u32 {
    let [entry, sequence, parent_entry, parent_sequence, source, offset, length] = *slot;
    // SAFETY: as above.
    unsafe {
        declared::table_insert_if_absent(
            names.journal.as_ptr(),
            names.journal.len(),
            names.image.as_ptr(),
            names.image.len(),
            slots.as_mut_ptr(),
            slots.len(),
            used,
            entry,
            sequence,
            parent_entry,
            parent_sequence,
            source,
            offset,
            length,
            out.as_mut_ptr(),
            out.len(),
        )
    }
}

/// The carved entries, `ENTRY_WORDS` words each, under those of their keys that are new; `out` as above.
pub fn table_seed(names: Sources, slots: &mut [u64], used: usize, entries: &[u64], out: &mut [u64]) -> u32 {
    // SAFETY: as above.
    unsafe {
        declared::table_seed(
            names.journal.as_ptr(),
            names.journal.len(),
            names.image.as_ptr(),
            names.image.len(),
            slots.as_mut_ptr(),
            slots.len(),
            used,
            entries.as_ptr(),
            entries.len(),
            out.as_mut_ptr(),
            out.len(),
        )
    }
}

/// The same by way of an index in the words of heads and nexts.
pub fn table_seed_indexed(
    names: Sources,
    slots: &mut [u64],
    used: usize,
    entries: &[u64],
    [heads, nexts]: [&mut [u64]; 2],
    out: &mut [u64],
) -> u32 {
    // SAFETY: as above.
    unsafe {
        declared::table_seed_indexed(
            names.journal.as_ptr(),
            names.journal.len(),
            names.image.as_ptr(),
            names.image.len(),
            slots.as_mut_ptr(),
            slots.len(),
            used,
            entries.as_ptr(),
            entries.len(),
            heads.as_mut_ptr(),
            heads.len(),
            nexts.as_mut_ptr(),
            nexts.len(),
            out.as_mut_ptr(),
            out.len(),
        )
    }
}

/// The same from entries as structs.
pub fn table_seed_entries(names: Sources, slots: &mut [u64], used: usize, entries: &[CarvedMftEntry]) -> Seeded {
    // SAFETY: as above.
    unsafe {
        declared::table_seed_entries(
            names.journal.as_ptr(),
            names.journal.len(),
            names.image.as_ptr(),
            names.image.len(),
            slots.as_mut_ptr(),
            slots.len(),
            used,
            entries.as_ptr(),
            entries.len(),
        )
    }
}

/// The path of a key: the places of its names, from the top down, where `chain` has room for all, its text at the front
/// of `text`; `out` takes the `PATH_FIELDS`.
pub fn path_resolve(
    names: Sources,
    slots: Slots,
    [entry, sequence]: Key,
    chain: &mut [u64],
    text: &mut [u8],
    out: &mut [u64],
) -> u32 {
    // SAFETY: as above.
    unsafe {
        declared::path_resolve(
            names.journal.as_ptr(),
            names.journal.len(),
            names.image.as_ptr(),
            names.image.len(),
            slots.words.as_ptr(),
            slots.words.len(),
            slots.used,
            entry,
            sequence,
            chain.as_mut_ptr(),
            chain.len(),
            text.as_mut_ptr(),
            text.len(),
            out.as_mut_ptr(),
            out.len(),
        )
    }
}

/// The same without the text; `out` takes the first `CHAIN_WORDS`.
pub fn path_chain(names: Sources, slots: Slots, [entry, sequence]: Key, chain: &mut [u64], out: &mut [u64]) -> u32 {
    // SAFETY: as above.
    unsafe {
        declared::path_chain(
            names.journal.as_ptr(),
            names.journal.len(),
            names.image.as_ptr(),
            names.image.len(),
            slots.words.as_ptr(),
            slots.words.len(),
            slots.used,
            entry,
            sequence,
            chain.as_mut_ptr(),
            chain.len(),
            out.as_mut_ptr(),
            out.len(),
        )
    }
}

/// The text of the name at a place at the front of `text`; `out` takes its length in bytes.
pub fn path_decode(names: Sources, [source, offset, length]: Place, text: &mut [u8], out: &mut [u64]) -> u32 {
    // SAFETY: as above.
    unsafe {
        declared::path_decode(
            names.journal.as_ptr(),
            names.journal.len(),
            names.image.as_ptr(),
            names.image.len(),
            source,
            offset,
            length,
            text.as_mut_ptr(),
            text.len(),
            out.as_mut_ptr(),
            out.len(),
        )
    }
}
