//! `utf16_decode` held against the Rust: the number answered, the text, its length, and what is left alone.

use crate::difference::Finding;
use crate::lent::{beginning, untouched, BEHIND};
use crate::library::{utf16_decode, ABOVE_DOMAIN, ACCEPTED, DOMAIN, NO_ROOM, TEXT_TOO_SMALL};
use std::fmt::Write;

/// How many words an answer has: the text's length.
pub const OUT: usize = 1;

/// How many bytes a call is lent for the text and how many words for the answer.
#[derive(Debug, Clone, Copy)]
pub struct Room {
    pub text: usize,
    pub out: usize,
}

/// What our call answered, with all the bytes and words, those lent and those behind them.
struct Answer {
    number: u32,
    text: Vec<u8>,
    out: Vec<u64>,
}

/// What a byte of the text holds before a call: none that UTF-8 has, and neighbours differ.
pub fn untouched_byte(at: usize) -> u8 {
    0xf8 + (at % 8) as u8
}

impl Answer {
    fn of(bytes: &[u8], room: Room) -> Self {
        let mut text: Vec<u8> = (0..room.text + BEHIND).map(untouched_byte).collect();
        let mut out: Vec<u64> = (0..room.out + BEHIND).map(untouched).collect();
        let number = utf16_decode(bytes, &mut text[..room.text], &mut out[..room.out]);
        Self { number, text, out }
    }

    /// The first thing in which the answer is not `number` with this text and these words in front, and nothing else
    /// written.
    fn against(&self, number: u32, text: &[u8], words: &[u64]) -> Option<String> {
        if self.number != number {
            return Some(format!("the answer is {}, not {number}", self.number));
        }
        let expected = |at: usize| words.get(at).copied().unwrap_or(untouched(at));
        if let Some(at) = (0..self.out.len()).find(|&at| self.out[at] != expected(at)) {
            return Some(format!("word {at} is {}, not {}", self.out[at], expected(at)));
        }
        let expected = |at: usize| text.get(at).copied().unwrap_or(untouched_byte(at));
        let at = (0..self.text.len()).find(|&at| self.text[at] != expected(at))?;
        let (ours, expected) = (self.text[at], expected(at));
        Some(format!("byte {at} of the text is {ours:02x}, not {expected:02x}"))
    }

    fn shown(&self) -> String {
        match self.number {
            ACCEPTED => format!("length {}, text {}", self.out[0], hex(beginning(&self.text))),
            refusal => format!("refusal {refusal}"),
        }
    }
}

/// Bytes as two lower-case hexadecimal digits each.
pub fn hex(bytes: &[u8]) -> String {
    let mut hex = String::new();
    for byte in bytes {
        write!(hex, "{byte:02x}").expect("a String takes any text");
    }
    hex
}

/// What the Rust makes of the units of a name: `String::from_utf16_lossy`. An odd last byte is dropped.
pub fn text(bytes: &[u8]) -> String {
    let units: Vec<u16> = bytes
        .chunks_exact(2)
        .map(|unit| u16::from_le_bytes([unit[0], unit[1]]))
        .collect();
    String::from_utf16_lossy(&units)
}

/// The scope's answer to bytes with a text of this length, its tests in their order.
fn number(bytes: &[u8], text: usize, room: Room) -> u32 {
    if bytes.len() > DOMAIN {
        ABOVE_DOMAIN
    } else if room.out < OUT {
        NO_ROOM
    } else if text > room.text {
        TEXT_TOO_SMALL
    } else {
        ACCEPTED
    }
}

/// Calls our decoder with each room, and holds every answer to the text that is expected.
pub fn compare(bytes: &[u8], text: &[u8], rooms: &[Room]) -> Result<(), Finding> {
    for &room in rooms {
        let ours = Answer::of(bytes, room);
        let what = match number(bytes, text.len(), room) {
            ACCEPTED => ours.against(ACCEPTED, text, &[text.len() as u64]),
            refusal => ours.against(refusal, &[], &[]),
        };
        if let Some(what) = what {
            return Err(Finding {
                call: format!(
                    "utf16_decode, {} bytes of text and {} words of answer lent",
                    room.text, room.out
                ),
                what,
                rust: format!("length {}, text {}", text.len(), hex(beginning(text))),
                ours: ours.shown(),
            });
        }
    }
    Ok(())
}
