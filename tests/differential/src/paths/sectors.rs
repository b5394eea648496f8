//! The bytes that a stored place of the image is decoded from. It is written from the scope, apart from the carver's walk,
//! from the copy that the Rust is given and from our library, so that a mistake in one is not repeated here: it asks of each
//! byte where its true value is stored.

/// The bytes of an entry and of a sector.
const ENTRY: usize = 1024;
const SECTOR: usize = 512;

/// The bytes of a place inside the image, those at the end of a sector from the array, where the place, by its length as
/// stored, lies in one entry that lies in the image, begins FILE and has an array that fails no test. Any other place has
/// its bytes as they are.
pub fn true_bytes(image: &[u8], offset: usize, length: usize) -> Vec<u8> {
    let start = offset / ENTRY * ENTRY;
    let within = offset + length <= start + ENTRY && start + ENTRY <= image.len();
    let array = match within {
        true => sound_array(&image[start..start + ENTRY]),
        false => None,
    };
    let places = offset..offset + length;
    match array {
        Some(array) => places.map(|at| image[start + home(array, at - start)]).collect(),
        None => image[places].to_vec(),
    }
}

/// Where the true byte of an entry is stored: the end of sector k has its two bytes at place k + 1 of the array.
fn home(array: usize, at: usize) -> usize {
    match (at + 2) % SECTOR {
        byte @ (0 | 1) => array + 2 * (at / SECTOR + 1) + byte,
        _ => at,
    }
}

/// Where the update sequence array of an entry stands, if the entry begins FILE and its array fails no test. Nothing else
/// of the entry is asked.
fn sound_array(entry: &[u8]) -> Option<usize> {
    let word = |at: usize| usize::from(entry[at]) + 256 * usize::from(entry[at + 1]);
    let (offset, count, first) = (word(4), word(6), word(20));
    let last = first.min(SECTOR - 2);
    let sound = entry[..4] == *b"FILE"
        && count == ENTRY / SECTOR + 1
        && (48..=last).step_by(2).any(|even| even == offset)
        && offset + 2 * count <= last
        && (1..count).all(|sector| word(SECTOR * sector - 2) == word(offset));
    sound.then_some(offset)
}
