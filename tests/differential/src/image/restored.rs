//! The copy of an image that is handed to the unchanged Rust in place of the stored one: the bytes that a driver of NTFS
//! reads. It is written from the NTFS layout and the scope, for entries of two sectors, apart from the scope's
//! walk, from the decoding of places and from our library, so that a mistake in one is not repeated here.

/// The bytes of an entry, and where its two sectors end.
const SIZE: usize = 1024;
const FIRST_END: usize = 510;
const SECOND_END: usize = 1022;

/// What became of an entry.
#[derive(Debug, Clone, Copy, PartialEq, Eq)]
pub enum Kind {
    /// It does not begin FILE, and is copied.
    Other,
    /// Its array fails a test: the copy's sequence is 0, which the Rust rejects.
    Unsound,
    /// Its array fails no test, and the true ends are those stored.
    AsStored,
    /// Its array fails no test, and the copy has other ends.
    Restored,
}

/// The copy, and what became of each entry that lies inside.
pub struct Restored {
    pub bytes: Vec<u8>,
    pub entries: Vec<Kind>,
}

/// Copies an image, with the true ends of the sectors of each entry whose array fails no test, whatever else is wrong with
/// it, and with sequence 0 in the others that begin FILE.
pub fn restored(image: &[u8]) -> Restored {
    // Blocks of zeros are left alone, so that the pages of a large image that has few entries are not in memory.
    let mut bytes = vec![0; image.len()];
    for (from, to) in image.chunks(SIZE).zip(bytes.chunks_mut(SIZE)) {
        if from.iter().any(|&byte| byte != 0) {
            to.copy_from_slice(from);
        }
    }
    let entries = bytes.chunks_exact_mut(SIZE).map(restore).collect();
    Restored { bytes, entries }
}

fn restore(entry: &mut [u8]) -> Kind {
    if !entry.starts_with(b"FILE") {
        return Kind::Other;
    }
    let Some([first, second]) = true_ends(entry) else {
        entry[16..18].fill(0);
        return Kind::Unsound;
    };
    if entry[FIRST_END..512] == first && entry[SECOND_END..] == second {
        return Kind::AsStored;
    }
    entry[FIRST_END..512].copy_from_slice(&first);
    entry[SECOND_END..].copy_from_slice(&second);
    Kind::Restored
}

/// The true ends of both sectors; none where the array fails a test.
fn true_ends(entry: &[u8]) -> Option<[[u8; 2]; 2]> {
    let pair = |at: usize| [entry[at], entry[at + 1]];
    let [offset, count, first_attribute] = [4, 6, 20].map(|at| usize::from(u16::from_le_bytes(pair(at))));
    if count != 3 || offset % 2 != 0 || offset < 48 {
        return None;
    }
    let behind = offset + 6;
    if behind > first_attribute || behind > FIRST_END {
        return None;
    }
    let check = pair(offset);
    let alike = pair(FIRST_END) == check && pair(SECOND_END) == check;
    alike.then(|| [pair(offset + 2), pair(offset + 4)])
}
