//! Names and paths as `String`s.

use crate::calls;
use crate::error::{index, ruled_out, TEXT_FULL};

/// The text of a name: its UTF-16, little endian, with U+FFFD for each unpaired surrogate. An odd last byte is dropped. The bytes
/// are taken as they are.
pub fn decoded(name: &[u8]) -> String {
    let (text, length) = with_text(name.len() / 2 * 3, "utf16_decode", |text| {
        let mut out = [0];
        (calls::utf16_decode(name, text, &mut out), out[0])
    });
    string(&text[..length])
}

/// The text of the name at an offset of an image, of so many bytes. It is that of the restored entry where the name lies in an
/// entry with a sound array.
pub fn decoded_in(image: &[u8], [offset, length]: [u64; 2]) -> String {
    let (text, length) = with_text(index(length) / 2 * 3, "path_decode", |text| {
        let mut out = [0];
        (calls::path_decode(image, [offset, length], text, &mut out), out[0])
    });
    string(&text[..length])
}

/// The UTF-16 of a text, little endian.
pub fn encoded(text: &str) -> Vec<u8> {
    text.encode_utf16().flat_map(u16::to_le_bytes).collect()
}

/// Lends a call a text of so many bytes, and longer ones while it says that this is too small. The call answers its refusal and
/// the length of what it wrote.
pub fn with_text(first: usize, name: &str, mut call: impl FnMut(&mut [u8]) -> (u32, u64)) -> (Vec<u8>, usize) {
    let mut text = vec![0; first];
    let length = fill(&mut text, name, &mut call);
    (text, length)
}

/// The same with a text that is used again. It stays as long as the longest that was needed.
pub fn fill(text: &mut Vec<u8>, name: &str, mut call: impl FnMut(&mut [u8]) -> (u32, u64)) -> usize {
    loop {
        match call(text) {
            (0, length) => return index(length),
            (TEXT_FULL, _) => text.resize(2 * text.len() + 64, 0),
            (refusal, _) => ruled_out(name, refusal),
        }
    }
}

/// Bytes that the library wrote, as a text.
pub fn string(text: &[u8]) -> String {
    std::str::from_utf8(text).expect("the library writes UTF-8").to_owned()
}

#[cfg(test)]
mod tests {
    use super::*;

    #[test]
    fn a_text_grows_until_it_is_large_enough() {
        let mut text = Vec::new();
        let mut lent = Vec::new();
        let length = fill(&mut text, "a call", |text| {
            lent.push(text.len());
            (if text.len() < 1000 { TEXT_FULL } else { 0 }, 1000)
        });
        assert_eq!(length, 1000);
        assert_eq!(lent, [0, 64, 192, 448, 960, 1984]);
    }

    #[test]
    fn names_go_to_units_and_back() {
        for name in ["", "a", "Straße", "\u{1F600}", "\u{FFFD}\u{0}\\"] {
            assert_eq!(decoded(&encoded(name)), name);
        }
    }
}
