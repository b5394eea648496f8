//! The C functions of `libvolume_history.a`, and the structs that they take and return. `tools/declare` writes this file from the
//! sources in Rattle, and the tests hold it to them; `include/` has a paragraph for each call.
#![allow(dead_code)]

#[repr(C)]
#[derive(Debug, Clone, Copy, PartialEq, Eq)]
pub struct Place {
    pub offset: usize,
    pub length: usize,
}

#[repr(C)]
#[derive(Debug, Clone, Copy, PartialEq, Eq)]
pub struct CarvedMftEntry {
    pub offset: usize,
    pub entry_number: u64,
    pub sequence_number: u16,
    pub filename: Place,
    pub parent_entry: u64,
    pub parent_sequence: u16,
    pub is_directory: bool,
    pub is_in_use: bool,
}

#[repr(C)]
#[derive(Debug, Clone, Copy, PartialEq, Eq)]
pub struct Seeded {
    pub used: usize,
    pub refusal: u32,
}

extern "C" {
    pub fn usn_parse_record_v2(data: *const u8, data_len: usize, words: *mut u64, words_len: usize) -> u32;

    pub fn usn_parse_record_v3(data: *const u8, data_len: usize, words: *mut u64, words_len: usize) -> u32;

    pub fn usn_listed_record(
        extract: *const u8,
        extract_len: usize,
        offset: usize,
        words: *mut u64,
        words_len: usize,
    ) -> u32;

    pub fn usn_parse_journal(
        extract: *const u8,
        extract_len: usize,
        list: *mut usize,
        list_len: usize,
        out: *mut u64,
        out_len: usize,
    ) -> u32;

    pub fn usn_reader_new(total: u64, reader: *mut u64, reader_len: usize) -> u32;

    pub fn usn_reader_next(
        reader: *mut u64,
        reader_len: usize,
        buffer: *const u8,
        buffer_len: usize,
        out: *mut u64,
        out_len: usize,
    ) -> u32;

    pub fn usn_reader_give(
        reader: *mut u64,
        reader_len: usize,
        buffer: *mut u8,
        buffer_len: usize,
        bytes: *const u8,
        bytes_len: usize,
        out: *mut u64,
        out_len: usize,
    ) -> u32;

    pub fn usn_carve_records(
        extract: *const u8,
        extract_len: usize,
        list: *mut usize,
        list_len: usize,
        out: *mut u64,
        out_len: usize,
    ) -> u32;

    pub fn table_seed_entries(
        journal: *const u8,
        journal_len: usize,
        image: *const u8,
        image_len: usize,
        slots: *mut u64,
        slots_len: usize,
        used: usize,
        entries: *const CarvedMftEntry,
        entries_len: usize,
    ) -> Seeded;

    pub fn table_insert(
        journal: *const u8,
        journal_len: usize,
        image: *const u8,
        image_len: usize,
        slots: *mut u64,
        slots_len: usize,
        used: usize,
        entry: u64,
        sequence: u64,
        parent_entry: u64,
        parent_sequence: u64,
        source: u64,
        offset: u64,
        length: u64,
        out: *mut u64,
        out_len: usize,
    ) -> u32;

    pub fn table_insert_if_absent(
        journal: *const u8,
        journal_len: usize,
        image: *const u8,
        image_len: usize,
        slots: *mut u64,
        slots_len: usize,
        used: usize,
        entry: u64,
        sequence: u64,
        parent_entry: u64,
        parent_sequence: u64,
        source: u64,
        offset: u64,
        length: u64,
        out: *mut u64,
        out_len: usize,
    ) -> u32;

    pub fn table_seed(
        journal: *const u8,
        journal_len: usize,
        image: *const u8,
        image_len: usize,
        slots: *mut u64,
        slots_len: usize,
        used: usize,
        entries: *const u64,
        entries_len: usize,
        out: *mut u64,
        out_len: usize,
    ) -> u32;

    pub fn table_seed_indexed(
        journal: *const u8,
        journal_len: usize,
        image: *const u8,
        image_len: usize,
        slots: *mut u64,
        slots_len: usize,
        used: usize,
        entries: *const u64,
        entries_len: usize,
        heads: *mut u64,
        heads_len: usize,
        nexts: *mut u64,
        nexts_len: usize,
        out: *mut u64,
        out_len: usize,
    ) -> u32;

    pub fn mft_carve_entries(
        image: *const u8,
        image_len: usize,
        list: *mut u64,
        list_len: usize,
        out: *mut u64,
        out_len: usize,
    ) -> u32;

    pub fn utf16_decode(
        bytes: *const u8,
        bytes_len: usize,
        text: *mut u8,
        text_len: usize,
        out: *mut u64,
        out_len: usize,
    ) -> u32;

    pub fn path_resolve(
        journal: *const u8,
        journal_len: usize,
        image: *const u8,
        image_len: usize,
        slots: *const u64,
        slots_len: usize,
        used: usize,
        entry: u64,
        sequence: u64,
        chain: *mut u64,
        chain_len: usize,
        text: *mut u8,
        text_len: usize,
        out: *mut u64,
        out_len: usize,
    ) -> u32;

    pub fn path_chain(
        journal: *const u8,
        journal_len: usize,
        image: *const u8,
        image_len: usize,
        slots: *const u64,
        slots_len: usize,
        used: usize,
        entry: u64,
        sequence: u64,
        chain: *mut u64,
        chain_len: usize,
        out: *mut u64,
        out_len: usize,
    ) -> u32;

    pub fn path_decode(
        journal: *const u8,
        journal_len: usize,
        image: *const u8,
        image_len: usize,
        source: u64,
        offset: u64,
        length: u64,
        text: *mut u8,
        text_len: usize,
        out: *mut u64,
        out_len: usize,
    ) -> u32;

    pub fn rewind_start(
        journal: *const u8,
        journal_len: usize,
        image: *const u8,
        image_len: usize,
        records: *const usize,
        records_len: usize,
        slots: *mut u64,
        slots_len: usize,
        used: usize,
        forward: *mut u64,
        forward_len: usize,
        out: *mut u64,
        out_len: usize,
    ) -> u32;

    pub fn rewind_next(
        journal: *const u8,
        journal_len: usize,
        image: *const u8,
        image_len: usize,
        records: *const usize,
        records_len: usize,
        used: usize,
        position: usize,
        forward: *mut u64,
        forward_len: usize,
        chain: *mut u64,
        chain_len: usize,
        text: *mut u8,
        text_len: usize,
        out: *mut u64,
        out_len: usize,
    ) -> u32;

    pub fn rewind_next_chain(
        journal: *const u8,
        journal_len: usize,
        image: *const u8,
        image_len: usize,
        records: *const usize,
        records_len: usize,
        used: usize,
        position: usize,
        forward: *mut u64,
        forward_len: usize,
        chain: *mut u64,
        chain_len: usize,
        out: *mut u64,
        out_len: usize,
    ) -> u32;

    pub fn rewind_start_indexed(
        journal: *const u8,
        journal_len: usize,
        image: *const u8,
        image_len: usize,
        records: *const usize,
        records_len: usize,
        slots: *mut u64,
        slots_len: usize,
        used: usize,
        forward: *mut u64,
        forward_len: usize,
        heads: *mut u64,
        heads_len: usize,
        nexts: *mut u64,
        nexts_len: usize,
        out: *mut u64,
        out_len: usize,
    ) -> u32;

    pub fn rewind_run(
        journal: *const u8,
        journal_len: usize,
        image: *const u8,
        image_len: usize,
        records: *const usize,
        records_len: usize,
        used: usize,
        position: usize,
        forward: *mut u64,
        forward_len: usize,
        heads: *mut u64,
        heads_len: usize,
        nexts: *mut u64,
        nexts_len: usize,
        ends: *mut u64,
        ends_len: usize,
        text: *mut u8,
        text_len: usize,
        out: *mut u64,
        out_len: usize,
    ) -> u32;
}
