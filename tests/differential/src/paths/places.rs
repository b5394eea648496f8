//! `path_decode` held against the Rust: the number answered, the text at a place, its length, and what is left alone.

use super::library::{path_decode, Place, Sources};
use super::model::{above_domain, decoded_bytes};
use crate::difference::Finding;
use crate::lent::{beginning, untouched, BEHIND};
use crate::library::{ABOVE_DOMAIN, ACCEPTED, NAME_OUTSIDE, NO_ROOM, TEXT_TOO_SMALL};
use crate::names::comparison::{hex, text, untouched_byte, Room, OUT};

/// The scope's answer, its tests in their order: the text, or a refusal.
fn decoded(names: Sources, place: Place, room: Room) -> Result<String, u32> {
    if above_domain(names) {
        return Err(ABOVE_DOMAIN);
    }
    if room.out < OUT {
        return Err(NO_ROOM);
    }
    let text = text(&decoded_bytes(names, place).ok_or(NAME_OUTSIDE)?);
    if text.len() > room.text {
        return Err(TEXT_TOO_SMALL);
    }
    Ok(text)
}

/// How many bytes of text a place has; none where it passes its slice.
pub fn length(names: Sources, place: Place) -> usize {
    decoded_bytes(names, place).map_or(0, |bytes| text(&bytes).len())
}

/// Calls our decoder with each room, and holds every answer to the scope and to the Rust's text.
pub fn compare(names: Sources, place: Place, rooms: &[Room]) -> Result<(), Finding> {
    for &room in rooms {
        let expected = decoded(names, place, room);
        let mut written: Vec<u8> = (0..room.text + BEHIND).map(untouched_byte).collect();
        let mut out: Vec<u64> = (0..room.out + BEHIND).map(untouched).collect();
        let number = path_decode(names, place, &mut written[..room.text], &mut out[..room.out]);
        let refusal = expected.as_ref().err().copied().unwrap_or(ACCEPTED);
        let length = |text: &String| text.len() as u64;
        let text = expected.as_ref().map_or(&[][..], |text| text.as_bytes());
        let byte = |at: usize| text.get(at).copied().unwrap_or(untouched_byte(at));
        let word = |at: usize| match (at, &expected) {
            (0, Ok(text)) => length(text),
            _ => untouched(at),
        };
        let what = if number != refusal {
            format!("the answer is {number}, not {refusal}")
        } else if let Some(at) = (0..out.len()).find(|&at| out[at] != word(at)) {
            format!("word {at} is {}, not {}", out[at], word(at))
        } else if let Some(at) = (0..written.len()).find(|&at| written[at] != byte(at)) {
            format!("byte {at} of the text is {:02x}, not {:02x}", written[at], byte(at))
        } else {
            continue;
        };
        return Err(Finding {
            call: format!("path_decode of {place:?}, {room:?} lent"),
            what,
            rust: format!("{expected:?}"),
            ours: format!("{number}, word {}, text {}", out[0], hex(beginning(&written))),
        });
    }
    Ok(())
}
