//! MFT entries in an image.

use crate::calls::{self, ENTRY_WORDS};
use crate::error::{index, ruled_out, LIST_FULL, MAX_SLICE};
use crate::text::decoded_in;

/// The bytes of an MFT entry. [`MAX_SLICE`] is a multiple of it.
const ENTRY_BYTES: usize = 1024;

/// A carved MFT entry, and where it was found.
#[derive(Debug, Clone, PartialEq, Eq)]
pub struct CarvedMftEntry {
    /// In bytes, from the start of the image.
    pub offset: usize,
    /// The entry's number, as its header has it.
    pub entry_number: u64,
    /// The entry's sequence number.
    pub sequence_number: u16,
    /// The name that was kept: a Win32 one rather than a DOS one. It is the restored entry's, without the check values that stand
    /// at the sector ends of the stored one.
    pub filename: String,
    /// The parent folder's entry number.
    pub parent_entry: u64,
    /// The parent folder's sequence number.
    pub parent_sequence: u16,
    /// Whether it is a folder.
    pub is_directory: bool,
    /// Whether the entry is in use.
    pub is_in_use: bool,
}

/// What an image's carving met. The candidates are the carved entries and those rejected.
#[derive(Debug, Clone, Default, PartialEq, Eq)]
pub struct MftCarvingStats {
    pub bytes_scanned: usize,
    pub candidates_examined: u64,
    pub entries_carved: usize,
    pub rejected: u64,
}

/// The MFT entries in an image of any length, looked for at each multiple of 1024, and what was met.
///
/// NTFS stores an entry with a check value at the last two bytes of each sector of 512, and with the true bytes in the entry's
/// update sequence array. The names and parents given here are those of the restored entry, which has the true bytes. An entry is
/// rejected where its array is not sound: where its count is not 3, its offset is odd or below 48, it passes the first attribute or
/// byte 510, or a sector does not end with its first number.
///
/// An image longer than [`MAX_SLICE`] is handed to the library in parts of that length. No entry lies across two of them, so the
/// answer is that of the whole.
pub fn carve_mft_entries(data: &[u8]) -> (Vec<CarvedMftEntry>, MftCarvingStats) {
    carve_in_parts(data, MAX_SLICE)
}

/// The entries of an image that is handed over in parts, whose length is a multiple of an entry's.
fn carve_in_parts(data: &[u8], part_bytes: usize) -> (Vec<CarvedMftEntry>, MftCarvingStats) {
    let mut entries = Vec::new();
    let mut stats = MftCarvingStats::default();
    for (i, part) in data.chunks(part_bytes).enumerate() {
        let (list, out) = carved(part, part.len() / ENTRY_BYTES * ENTRY_WORDS);
        let base = i * part_bytes;
        entries.extend(list.chunks_exact(ENTRY_WORDS).map(|words| entry_of(words, part, base)));
        stats.bytes_scanned += index(out[0]);
        stats.candidates_examined += out[1];
        stats.entries_carved += index(out[2]);
        stats.rejected += out[3];
    }
    (entries, stats)
}

/// The words of a part's entries, and its counters. The list has `first` words to begin with, and more while the call says that
/// it is too short.
fn carved(part: &[u8], first: usize) -> (Vec<u64>, [u64; 4]) {
    let mut list = vec![0; first];
    let mut out = [0; 4];
    loop {
        match calls::mft_carve_entries(part, &mut list, &mut out) {
            0 => break,
            LIST_FULL => list.resize(2 * list.len() + ENTRY_WORDS, 0),
            refusal => ruled_out("mft_carve_entries", refusal),
        }
    }
    list.truncate(ENTRY_WORDS * index(out[2]));
    (list, out)
}

/// The entry of these words, which count from the start of a part; the part begins at `base`.
fn entry_of(words: &[u64], part: &[u8], base: usize) -> CarvedMftEntry {
    CarvedMftEntry {
        offset: base + index(words[0]),
        entry_number: words[1],
        sequence_number: words[2] as u16,
        filename: decoded_in(part, [words[3], words[4]]),
        parent_entry: words[5],
        parent_sequence: words[6] as u16,
        is_directory: words[7] != 0,
        is_in_use: words[8] != 0,
    }
}

#[cfg(test)]
mod tests {
    use super::*;

    /// An image of entries with the name `a`, of which each third is rejected for its sequence 0. Their check value is 0, and so
    /// are the true sector ends.
    fn image(entries: u8) -> Vec<u8> {
        let mut image = Vec::new();
        for number in 0..entries {
            let mut entry = [0; ENTRY_BYTES];
            entry[..8].copy_from_slice(b"FILE\x30\0\x03\0");
            entry[16] = number % 3;
            entry[20] = 56;
            entry[44] = number;
            let attribute = [0x30, 0, 0, 0, 104, 0, 0, 0, 0, 0, 0, 0, 0, 0, 0, 0, 68, 0, 0, 0, 24, 0];
            entry[56..78].copy_from_slice(&attribute);
            entry[80 + 64] = 1;
            entry[80 + 66] = b'a';
            entry[160..164].copy_from_slice(&[0xff; 4]);
            image.extend(entry);
        }
        image
    }

    #[test]
    fn parts_give_what_the_whole_gives() {
        let mut data = image(20);
        data.extend([0; 100]);
        let whole = carve_in_parts(&data, MAX_SLICE);
        assert_eq!(whole.1.candidates_examined, 20);
        assert_eq!(whole.1.entries_carved, 13);
        assert_eq!(whole.1.rejected, 7);
        for entries in 1..25 {
            assert_eq!(
                carve_in_parts(&data, entries * ENTRY_BYTES),
                whole,
                "parts of {entries} entries"
            );
        }
    }

    #[test]
    fn parts_give_the_restored_names_of_the_whole() {
        let data = include_bytes!("../../../tests/samples/sector-ends.bin");
        let whole = carve_in_parts(data, MAX_SLICE);
        assert_eq!(whole.1.entries_carved, 28);
        for entries in [1, 2, 7, 31] {
            assert_eq!(
                carve_in_parts(data, entries * ENTRY_BYTES),
                whole,
                "parts of {entries} entries"
            );
        }
    }

    #[test]
    fn a_list_grows_until_it_is_long_enough() {
        let data = image(20);
        let whole = carved(&data, 20 * ENTRY_WORDS);
        for first in [0, 1, 8, 9, 116, 117] {
            assert_eq!(carved(&data, first), whole, "from {first} words on");
        }
    }
}
