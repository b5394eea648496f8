//! The scope's rewind. It is written from the document, apart from the original and from our library, so that a mistake in
//! one is not repeated here. The Rust tells neither places nor slots, and refuses nothing; those compared are from here.

use super::library::State;
use crate::library::{ABOVE_DOMAIN, BAD_NUMBERS, NAME, NAME_OUTSIDE, NOT_LISTED, TABLE_FULL};
use crate::paths::library::{Key, Sources, SLOT_WORDS};
use crate::paths::model::{above_domain, bytes_at, key, name, parent, place, Chain, Slot, Table};
use crate::records::answers::{listed_by_rust, words_of};
use std::collections::HashSet;

/// The reasons that decide what becomes of a record.
const FILE_CREATE: u64 = 0x100;
const RENAME_OLD_NAME: u64 = 0x1000;
const RENAME_NEW_NAME: u64 = 0x2000;

/// The word of a record's reasons.
const REASON: usize = 7;

/// What a listed record says: the slot that it makes, and the reasons of the change.
#[derive(Debug, Clone, Copy)]
pub struct Entry {
    pub slot: Slot,
    reason: u64,
}

/// A list of records with the bytes that they and the names lie in.
pub struct Listed<'a> {
    pub names: Sources<'a>,
    /// Two words a record, of which the first, its offset, counts.
    pub words: &'a [usize],
    /// None where some listed record is none.
    pub entries: Option<Vec<Entry>>,
}

/// What becomes of a record: the table with it, the state then, and the path of its parent with the text of its own.
#[derive(Debug, Clone)]
pub struct Step {
    pub table: Table,
    pub state: State,
    pub parent: Key,
    pub chain: Chain,
    pub text: String,
}

#[derive(Debug, Clone)]
pub enum Next {
    Record(Box<Step>),
    End,
}

/// The record at an offset, if one stands there.
pub fn entry_at(journal: &[u8], offset: usize) -> Option<Entry> {
    let (parser, part, record) = listed_by_rust(journal, offset).ok()?;
    let words = words_of(&record, parser.layout, part);
    let [place, length] = match words[NAME + 1] {
        0 => [0, 0],
        length => [offset as u64 + words[NAME], length],
    };
    Some(Entry {
        slot: [words[0], words[1], words[2], words[3], 0, place, length],
        reason: words[REASON],
    })
}

impl<'a> Listed<'a> {
    pub fn of(names: Sources<'a>, words: &'a [usize]) -> Self {
        let offsets = words.chunks_exact(2).map(|record| record[0]);
        let entries = match above_domain(names) {
            true => None,
            false => offsets.map(|offset| entry_at(names.journal, offset)).collect(),
        };
        Self { names, words, entries }
    }

    /// The entries, or the refusal of a call over a table.
    pub fn tested(&self, table: &Table, used: usize) -> Result<&[Entry], u32> {
        if above_domain(self.names) {
            return Err(ABOVE_DOMAIN);
        }
        if used > table.slots() {
            return Err(BAD_NUMBERS);
        }
        let entries = self.entries.as_ref().ok_or(NOT_LISTED)?;
        if (0..used).any(|at| bytes_at(self.names, place(&table.slot(at))).is_none()) {
            return Err(NAME_OUTSIDE);
        }
        Ok(entries)
    }

    /// How many slots a start needs in either table, where it is not refused before.
    pub fn needed(&self, first: &Table, used: usize) -> Result<usize, u32> {
        let entries = self.tested(first, used)?;
        let keys = entries.iter().map(|entry| key(&entry.slot));
        let new: HashSet<Key> = keys.filter(|&key| first.find(used, key).is_none()).collect();
        Ok(used + new.len())
    }

    /// From the last record to the first into the first table, and its used slots to the front of the other.
    pub fn start(&self, first: &mut Table, used: usize, forward: &mut Table) -> Result<State, u32> {
        let needed = self.needed(first, used)?;
        if needed > first.slots() || needed > forward.slots() {
            return Err(TABLE_FULL);
        }
        let mut used = used;
        for entry in self.tested(first, used)?.iter().rev() {
            used = first.store(self.names, used, &[entry.slot], entry.reason & RENAME_OLD_NAME != 0)?;
        }
        let copied = SLOT_WORDS * used;
        forward.words[..copied].copy_from_slice(&first.words[..copied]);
        Ok(State { used, position: 0 })
    }

    /// The next record, with any room for its text.
    pub fn next(&self, forward: &Table, state: State) -> Result<Next, u32> {
        let entries = self.tested(forward, state.used)?;
        let Some(Entry { slot, reason }) = entries.get(state.position) else {
            return Ok(Next::End);
        };
        let mut table = forward.clone();
        let replace = reason & (RENAME_NEW_NAME | FILE_CREATE) != 0;
        let used = table.store(self.names, state.used, &[*slot], replace)?;
        let parent = parent(slot);
        let chain = table.chain(self.names, used, parent)?;
        let text = chain.text(self.names) + "\\" + &name(self.names, place(slot));
        let position = state.position + 1;
        Ok(Next::Record(Box::new(Step {
            table,
            state: State { used, position },
            parent,
            chain,
            text,
        })))
    }
}
