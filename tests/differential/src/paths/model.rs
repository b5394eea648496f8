//! The scope's table and its paths. It is written from the document, apart from the original and from our library, so
//! that a mistake in one is not repeated here. The Rust tells neither places nor slots; those compared are from here.

use super::library::{Key, Place, Sources, CHAIN_WORDS, ROOT, SLOT_WORDS, UNKNOWN, UNRESOLVED};
use super::sectors::true_bytes;
use crate::library::{ABOVE_DOMAIN, BAD_NUMBERS, DOMAIN, ENTRY_NAME, ENTRY_WORDS, NAME_OUTSIDE, TABLE_FULL};
use crate::names::comparison::text;
use std::collections::HashSet;

/// The words of a slot: its key, its parent's and its name's place.
pub type Slot = [u64; SLOT_WORDS];

/// A parent so many levels up is not looked for any more.
const DEPTH: usize = 256;

/// The source of a carved entry's name: the image.
const CARVED: u64 = 1;

/// The words lent for a table. How many slots are used is told with each call.
#[derive(Debug, Clone)]
pub struct Table {
    pub words: Vec<u64>,
}

/// What the names of a path hang under.
#[derive(Debug, Clone, Copy, PartialEq, Eq)]
pub enum End {
    Root,
    Unknown(Key),
    Unresolved(Key),
}

/// The places of a path's names, from the top down, and their end.
#[derive(Debug, Clone)]
pub struct Chain {
    pub places: Vec<Place>,
    pub end: End,
}

/// The key of a slot, its parent's, and its name's place.
pub fn key(slot: &Slot) -> Key {
    [slot[0], slot[1]]
}

pub fn parent(slot: &Slot) -> Key {
    [slot[2], slot[3]]
}

pub fn place(slot: &Slot) -> Place {
    [slot[4], slot[5], slot[6]]
}

/// The slots that the whole entries of a carved list make.
pub fn carved(entries: &[u64]) -> Vec<Slot> {
    let whole = entries.chunks_exact(ENTRY_WORDS);
    whole
        .map(|entry| {
            let [offset, length] = [entry[ENTRY_NAME], entry[ENTRY_NAME + 1]];
            [entry[1], entry[2], entry[5], entry[6], CARVED, offset, length]
        })
        .collect()
}

/// The bytes at a place, as they are; none where it passes its slice.
pub fn bytes_at<'a>(names: Sources<'a>, [source, offset, length]: Place) -> Option<&'a [u8]> {
    let slice = if source == 0 { names.journal } else { names.image };
    let end = offset.checked_add(length).filter(|&end| end <= slice.len() as u64)?;
    Some(&slice[offset as usize..end as usize])
}

/// The bytes that a place is decoded from: those of the journal as they are, those of the image with the true sector ends
/// of the entry around them, where it has them. None where the place passes its slice.
pub fn decoded_bytes(names: Sources, place: Place) -> Option<Vec<u8>> {
    let bytes = bytes_at(names, place)?;
    Some(match place {
        [0, ..] => bytes.to_vec(),
        [_, offset, length] => true_bytes(names.image, offset as usize, length as usize),
    })
}

/// A place inside whose bytes are decoded as others than they are.
pub fn restored(names: Sources, place: Place) -> bool {
    bytes_at(names, place) != decoded_bytes(names, place).as_deref()
}

/// The text of the name at a place inside.
pub fn name(names: Sources, place: Place) -> String {
    text(&decoded_bytes(names, place).expect("the name's place lies inside"))
}

/// A slice is above the domain.
pub fn above_domain(names: Sources) -> bool {
    names.journal.len().max(names.image.len()) > DOMAIN
}

impl Table {
    pub fn slots(&self) -> usize {
        self.words.len() / SLOT_WORDS
    }

    pub fn slot(&self, at: usize) -> Slot {
        let words = &self.words[SLOT_WORDS * at..][..SLOT_WORDS];
        words.try_into().expect("a slot's words")
    }

    fn put(&mut self, at: usize, slot: &Slot) {
        self.words[SLOT_WORDS * at..][..SLOT_WORDS].copy_from_slice(slot);
    }

    /// The lowest used slot with this key.
    pub fn find(&self, used: usize, [entry, sequence]: Key) -> Option<usize> {
        let slots = self.words.chunks_exact(SLOT_WORDS).take(used);
        slots
            .into_iter()
            .position(|slot| slot[0] == entry && slot[1] == sequence)
    }

    /// Adds slots, in place of known ones or not; gives how many slots are used then, or the refusal.
    pub fn store(&mut self, names: Sources, used: usize, added: &[Slot], replace: bool) -> Result<usize, u32> {
        if used > self.slots() {
            return Err(BAD_NUMBERS);
        }
        if added.iter().any(|slot| bytes_at(names, place(slot)).is_none()) {
            return Err(NAME_OUTSIDE);
        }
        let new: HashSet<Key> = added
            .iter()
            .map(key)
            .filter(|&key| self.find(used, key).is_none())
            .collect();
        if used + new.len() > self.slots() {
            return Err(TABLE_FULL);
        }
        let mut used = used;
        for slot in added {
            match self.find(used, key(slot)) {
                Some(at) if replace => self.put(at, slot),
                Some(_) => {}
                None => {
                    self.put(used, slot);
                    used += 1;
                }
            }
        }
        Ok(used)
    }

    /// The chain of a key, or the refusal.
    pub fn chain(&self, names: Sources, used: usize, key: Key) -> Result<Chain, u32> {
        if above_domain(names) {
            return Err(ABOVE_DOMAIN);
        }
        if used > self.slots() {
            return Err(BAD_NUMBERS);
        }
        if (0..used).any(|at| bytes_at(names, place(&self.slot(at))).is_none()) {
            return Err(NAME_OUTSIDE);
        }
        let mut places = Vec::new();
        let mut key = key;
        let end = loop {
            if places.len() > DEPTH {
                break End::Unresolved(key);
            }
            if key[0] == 5 {
                break End::Root;
            }
            let Some(at) = self.find(used, key) else {
                break End::Unknown(key);
            };
            let slot = self.slot(at);
            places.push(place(&slot));
            key = parent(&slot);
        };
        places.reverse();
        Ok(Chain { places, end })
    }
}

impl Chain {
    /// The words of the places.
    pub fn words(&self) -> &[u64] {
        self.places.as_flattened()
    }

    /// The words of the answer, before the text's length.
    pub fn answer(&self) -> [u64; CHAIN_WORDS] {
        let names = self.places.len() as u64;
        match self.end {
            End::Root => [names, ROOT, 0, 0],
            End::Unknown([entry, sequence]) => [names, UNKNOWN, entry, sequence],
            End::Unresolved([entry, sequence]) => [names, UNRESOLVED, entry, sequence],
        }
    }

    pub fn text(&self, names: Sources) -> String {
        let mut text = match self.end {
            End::Root => ".".to_string(),
            End::Unknown([entry, sequence]) => format!("UNKNOWN({entry}:{sequence})"),
            End::Unresolved([entry, sequence]) => format!("UNRESOLVED({entry}:{sequence})"),
        };
        for &place in &self.places {
            text.push('\\');
            text += &name(names, place);
        }
        text
    }
}
