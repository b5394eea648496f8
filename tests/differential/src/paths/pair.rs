//! Our table beside the scope's and the Rust's, given the same calls: every answer, every word and every path is
//! compared. A refused call changes nothing of ours and is left out on the Rust's side.

use super::index::{sizes, Index};
use super::library::{
    path_chain, path_resolve, table_insert, table_insert_if_absent, table_seed, table_seed_entries, table_seed_indexed,
    Key, Slots, Sources, CHAIN_WORDS, PATH_FIELDS, SLOT_FIELDS, SLOT_WORDS, TABLE_FIELDS,
};
use super::lists::{word_against, Lists, Room, Written};
use super::model::{self, carved, decoded_bytes, key, parent, place, Chain, Slot, Table};
use crate::carve::CarvedMftEntry;
use crate::declared::{self, Place};
use crate::difference::Finding;
use crate::lent::{beginning, untouched, BEHIND};
use crate::library::{ABOVE_DOMAIN, ACCEPTED, ENTRY_WORDS, NO_ROOM, TEXT_TOO_SMALL};
use crate::names::comparison::text;
use crate::rewind::{EntryInfo, EntryKey, RewindEngine};
use std::collections::HashSet;

/// How many words an answer of the table has, and one of a path.
pub const STORED: usize = TABLE_FIELDS.len();
pub const TOLD: usize = PATH_FIELDS.len();

/// What is handed to a call beside what it is asked: the bytes of the names and the used slots.
#[derive(Debug, Clone, Copy)]
pub struct Given<'a> {
    pub names: Sources<'a>,
    pub used: usize,
}

/// What a call adds to the table.
#[derive(Debug, Clone, Copy)]
pub enum Added<'a> {
    One {
        slot: Slot,
        replace: bool,
    },
    /// A list of carved entries, with those that the Rust's carver gave of the restored copy, where it is carved.
    Listed {
        entries: &'a [u64],
        rust: Option<&'a [CarvedMftEntry]>,
    },
}

impl<'a> Added<'a> {
    /// A list made by hand.
    pub fn list(entries: &'a [u64]) -> Self {
        Self::Listed { entries, rust: None }
    }
}

/// A path as the scope tells it.
#[derive(Debug, Clone)]
pub struct Told {
    pub chain: Chain,
    pub text: String,
}

/// A path asked for, with the scope's answer: the path, or a refusal, 8 apart.
pub struct Question<'a> {
    given: Given<'a>,
    key: Key,
    pub told: Result<Told, u32>,
}

pub struct Pair<'a> {
    pub names: Sources<'a>,
    pub used: usize,
    pub model: Table,
    /// Our words, those lent and those behind them.
    slots: Vec<u64>,
    /// The Rust's table; none where a sequence has more than its 16 bits.
    rust: Option<RewindEngine>,
    /// How many used slots have the key of a lower one.
    hidden: usize,
}

impl<'a> Pair<'a> {
    /// Tables with these words, of which so many slots are used.
    pub fn new(names: Sources<'a>, words: Vec<u64>, used: usize) -> Self {
        let mut slots = words.clone();
        slots.extend((0..BEHIND).map(|at| untouched(words.len() + at)));
        let mut pair = Self {
            names,
            used: 0,
            model: Table { words },
            slots,
            rust: None,
            hidden: 0,
        };
        pair.reuse(used);
        pair
    }

    /// Empty tables of so many words.
    pub fn empty(names: Sources<'a>, words: usize) -> Self {
        Self::new(names, (0..words).map(untouched).collect(), 0)
    }

    /// Goes on with so many used slots, whatever was used before. The Rust's table is made anew; of equal keys the
    /// lowest slot is inserted last.
    pub fn reuse(&mut self, used: usize) {
        self.used = used;
        let slots: Vec<Slot> = (0..used).map(|at| self.model.slot(at)).collect();
        self.hidden = used - slots.iter().map(key).collect::<HashSet<Key>>().len();
        self.rust = Some(RewindEngine::new());
        for slot in slots.iter().rev() {
            self.tell_rust(slot, true);
        }
    }

    /// The words, how many slots are used and how many of these are hidden, and the Rust's table.
    pub fn into_parts(self) -> (Vec<u64>, usize, usize, Option<RewindEngine>) {
        (self.model.words, self.used, self.hidden, self.rust)
    }

    pub fn given(&self) -> Given<'a> {
        Given {
            names: self.names,
            used: self.used,
        }
    }

    /// The same addition to the Rust's table, which is given up where its sequences are too short.
    fn tell_rust(&mut self, slot: &Slot, replace: bool) {
        let names = self.names;
        self.rust = self
            .rust
            .take()
            .and_then(|mut rust| add(&mut rust, names, slot, replace).then_some(rust));
    }

    /// Adds to all three tables, with so many words lent for the answer. Gives whether it was accepted.
    pub fn store(&mut self, given: Given, added: Added, out: usize) -> Result<bool, Finding> {
        let slots = match added {
            Added::One { slot, .. } => vec![slot],
            Added::Listed { entries, .. } => carved(entries),
        };
        let replace = matches!(added, Added::One { replace: true, .. });
        let expected = match out < STORED {
            true => Err(NO_ROOM),
            false => self.model.store(given.names, given.used, &slots, replace),
        };
        let structs = self.seed_structs(given, added);
        let indexed = self.seed_indexed(given, added, out);
        let mut answer: Vec<u64> = (0..out + BEHIND).map(untouched).collect();
        let number = self.call(given, added, &mut answer[..out]);
        let used = expected.map(|used| used as u64);
        let what = against(number, used.err().unwrap_or(ACCEPTED))
            .or_else(|| {
                let front: &[u64] = used.as_ref().map_or(&[], std::slice::from_ref);
                word_against(&answer, front).map(|(at, word)| format!("word {at} is {}, not {word}", answer[at]))
            })
            .or_else(|| self.slots_against());
        if let Some(what) = what {
            return Err(Finding {
                call: format!("{added:?}, {} used, {out} words of answer lent", given.used),
                what,
                rust: format!("the scope: {expected:?}, {}", shown(&self.model, self.used)),
                ours: format!("{number}, words {answer:?}"),
            });
        }
        if let Some((answer, slots)) = structs.filter(|_| out >= STORED) {
            if answer != expected || slots != self.slots {
                return Err(Finding {
                    call: format!("from structs: {added:?}, {} used", given.used),
                    what: "it answers or leaves something else than seeding from the flat list".to_string(),
                    rust: format!("the scope: {expected:?}, {}", shown(&self.model, self.used)),
                    ours: format!("{answer:?}, words {slots:?}"),
                });
            }
        }
        if let Some((by_index, words, slots, sizes, index)) = indexed {
            let left = expected.ok().map(|used| (&self.model, used));
            let what = match (by_index, &words, &slots) == (number, &answer, &self.slots) {
                true => index.against(&Index::after(sizes, left)),
                false => Some("it answers or leaves something else than seeding without an index".to_string()),
            };
            if let Some(what) = what {
                return Err(Finding {
                    call: format!("by way of an index, {sizes:?} lent: {added:?}, {} used", given.used),
                    what,
                    rust: format!("the scope: {expected:?}, {}", shown(&self.model, self.used)),
                    ours: format!("{by_index}, words {words:?}, {slots:?}, {index:?}"),
                });
            }
        }
        let Ok(used) = expected else { return Ok(false) };
        self.used = used;
        match (added, &mut self.rust) {
            (Added::Listed { rust: Some(carved), .. }, Some(rust)) => rust.seed_from_carved(carved),
            _ => slots.iter().for_each(|slot| self.tell_rust(slot, replace)),
        }
        self.compare_length(added)?;
        Ok(true)
    }

    fn call(&mut self, given: Given, added: Added, out: &mut [u64]) -> u32 {
        let lent = &mut self.slots[..self.model.words.len()];
        match added {
            Added::One { slot, replace: true } => table_insert(given.names, lent, given.used, &slot, out),
            Added::One { slot, .. } => table_insert_if_absent(given.names, lent, given.used, &slot, out),
            Added::Listed { entries, .. } => table_seed(given.names, lent, given.used, entries, out),
        }
    }

    /// Seeds a copy of our table from the same entries as structs, where these can hold them: the used slots or the
    /// refusal, and the words.
    fn seed_structs(&self, given: Given, added: Added) -> Option<(Result<usize, u32>, Vec<u64>)> {
        let Added::Listed { entries, .. } = added else {
            return None;
        };
        let structs: Vec<declared::CarvedMftEntry> = entries
            .chunks_exact(ENTRY_WORDS)
            .map(as_struct)
            .collect::<Option<Vec<declared::CarvedMftEntry>>>()?;
        let mut slots = self.slots.clone();
        let seeded = table_seed_entries(given.names, &mut slots[..self.model.words.len()], given.used, &structs);
        let answer = match seeded.refusal {
            ACCEPTED => Ok(seeded.used),
            refusal => Err(refusal),
        };
        Some((answer, slots))
    }

    /// Seeds a copy of our table by way of an index: the answer with its words, those of the table, and the index with the
    /// words lent for it.
    #[allow(clippy::type_complexity)]
    fn seed_indexed(
        &self,
        given: Given,
        added: Added,
        out: usize,
    ) -> Option<(u32, Vec<u64>, Vec<u64>, [usize; 2], Index)> {
        let Added::Listed { entries, .. } = added else {
            return None;
        };
        let sizes = sizes(self.model.slots(), self.slots.len() + given.used.min(8) + entries.len());
        let mut slots = self.slots.clone();
        let mut answer: Vec<u64> = (0..out + BEHIND).map(untouched).collect();
        let mut index = Index::of(sizes);
        let lent = &mut slots[..self.model.words.len()];
        let number = table_seed_indexed(given.names, lent, given.used, entries, index.lent(), &mut answer[..out]);
        Some((number, answer, slots, sizes, index))
    }

    /// The Rust's table has as many keys as ours.
    fn compare_length(&self, added: Added) -> Result<(), Finding> {
        let keys = self.used - self.hidden;
        match &self.rust {
            Some(rust) if rust.lookup_len() != keys => Err(Finding {
                call: format!("{added:?}"),
                what: "the Rust's table has another number of keys".to_string(),
                rust: rust.lookup_len().to_string(),
                ours: keys.to_string(),
            }),
            _ => Ok(()),
        }
    }

    /// The first of our words that is not the scope's.
    fn slots_against(&self) -> Option<String> {
        let (at, word) = word_against(&self.slots, &self.model.words)?;
        let (slot, field) = (at / SLOT_WORDS, SLOT_FIELDS[at % SLOT_WORDS]);
        Some(format!("{field} of slot {slot} is {}, not {word}", self.slots[at]))
    }

    /// The scope's path of a key, whose chain, with the table's own names, is the Rust's where the table is as the Rust has
    /// it. A slice that is cut may have other names: an entry that is not whole is decoded as it is.
    pub fn ask<'b>(&self, given: Given<'b>, key: Key) -> Result<Question<'b>, Finding> {
        let chain = self.model.chain(given.names, given.used, key);
        let told = chain.map(|chain| Told {
            text: chain.text(given.names),
            chain,
        });
        let question = Question { given, key, told };
        let (Ok(told), Some(rust), Some(asked)) = (&question.told, &self.rust, rust_key(key)) else {
            return Ok(question);
        };
        if given.used == self.used {
            let path = rust.resolve_path(&asked);
            let own = told.chain.text(self.names);
            if path != own {
                return Err(Finding {
                    call: format!("resolve_path of {key:?}"),
                    what: "the scope's path is not the Rust's".to_string(),
                    rust: format!("{path:?}"),
                    ours: format!("the scope: {own:?}, {}", shown(&self.model, self.used)),
                });
            }
        }
        Ok(question)
    }

    /// Our path with its text.
    pub fn resolve(&self, question: &Question, room: Room) -> Result<(), Finding> {
        let mut lists = Lists::of(room);
        let number = path_resolve(
            question.given.names,
            self.lent(question),
            question.key,
            &mut lists.chain[..room.chain],
            &mut lists.text[..room.text],
            &mut lists.out[..room.out],
        );
        let expected = match &question.told {
            Err(ABOVE_DOMAIN) => Err(ABOVE_DOMAIN),
            _ if room.out < TOLD => Err(NO_ROOM),
            Err(refusal) => Err(*refusal),
            Ok(told) if told.text.len() > room.text => Err(TEXT_TOO_SMALL),
            Ok(told) => {
                let [names, end, entry, sequence] = told.chain.answer();
                Ok(Written {
                    chain: told.chain.words(),
                    text: told.text.as_bytes(),
                    out: vec![names, end, entry, sequence, told.text.len() as u64],
                })
            }
        };
        self.compare("path_resolve", question, room, number, &lists, expected)
    }

    /// Our chain without text.
    pub fn chain(&self, question: &Question, room: Room) -> Result<(), Finding> {
        let mut lists = Lists::of(room);
        let number = path_chain(
            question.given.names,
            self.lent(question),
            question.key,
            &mut lists.chain[..room.chain],
            &mut lists.out[..room.out],
        );
        let expected = match &question.told {
            Err(ABOVE_DOMAIN) => Err(ABOVE_DOMAIN),
            _ if room.out < CHAIN_WORDS => Err(NO_ROOM),
            Err(refusal) => Err(*refusal),
            Ok(told) => Ok(Written {
                chain: told.chain.words(),
                text: &[],
                out: told.chain.answer().to_vec(),
            }),
        };
        self.compare("path_chain", question, room, number, &lists, expected)
    }

    fn lent(&self, question: &Question) -> Slots<'_> {
        Slots {
            words: &self.slots[..self.model.words.len()],
            used: question.given.used,
        }
    }

    /// The lent lists after a call against what it writes, the chain where there is room for all of it; or against a
    /// refusal, which writes nothing.
    fn compare(
        &self,
        call: &str,
        question: &Question,
        room: Room,
        number: u32,
        lists: &Lists,
        expected: Result<Written, u32>,
    ) -> Result<(), Finding> {
        let refusal = expected.as_ref().err().copied().unwrap_or(ACCEPTED);
        let mut written = expected.unwrap_or_default();
        if written.chain.len() > room.chain {
            written.chain = &[];
        }
        let what = against(number, refusal)
            .or_else(|| lists.against(&PATH_FIELDS, &written))
            .or_else(|| self.slots_against());
        let Some(what) = what else { return Ok(()) };
        let Question { given, key, told } = question;
        Err(Finding {
            call: format!(
                "{call} of {key:?}, {room:?} lent, {} used, journal of {} and image of {} bytes",
                given.used,
                given.names.journal.len(),
                given.names.image.len()
            ),
            what,
            rust: format!("the scope: {told:?}, {}", shown(&self.model, self.used)),
            ours: lists.shown(&PATH_FIELDS, number),
        })
    }

    /// Every key of the table and every parent, looked up in the scope's table and in the Rust's.
    pub fn compare_keys(&self) -> Result<(), Finding> {
        let slots = (0..self.used).map(|at| self.model.slot(at));
        let keys: HashSet<Key> = slots.flat_map(|slot| [key(&slot), parent(&slot)]).collect();
        keys.into_iter()
            .try_for_each(|key| self.ask(self.given(), key).map(|_| ()))
    }
}

/// The number is not the one expected.
pub fn against(number: u32, expected: u32) -> Option<String> {
    (number != expected).then(|| format!("the answer is {number}, not {expected}"))
}

/// Adds a slot to the Rust's table, in place of a known one or not. Not done where a sequence has more than 16 bits.
pub fn add(rust: &mut RewindEngine, names: Sources, slot: &Slot, replace: bool) -> bool {
    let (Some(key), Some(parent)) = (rust_key(key(slot)), rust_key(parent(slot))) else {
        return false;
    };
    // A place may lie outside, since calls are handed other slices too; no path is told while it does.
    let name = decoded_bytes(names, place(slot))
        .map(|bytes| text(&bytes))
        .unwrap_or_default();
    match replace {
        true => rust.insert(key, EntryInfo { name, parent }),
        false => rust.seed_from_carved(&[CarvedMftEntry {
            offset: 0,
            entry_number: key.entry,
            sequence_number: key.sequence,
            filename: name,
            parent_entry: parent.entry,
            parent_sequence: parent.sequence,
            is_directory: false,
            is_in_use: false,
        }]),
    }
    true
}

/// The Rust's key, whose sequence has 16 bits.
pub fn rust_key([entry, sequence]: Key) -> Option<EntryKey> {
    Some(EntryKey::new(entry, sequence.try_into().ok()?))
}

/// The used slots of the scope's table, as far as they are printed.
fn shown(table: &model::Table, used: usize) -> String {
    let slots: Vec<Slot> = (0..used.min(table.slots())).map(|at| table.slot(at)).collect();
    format!("{} slots, used {:?}", table.slots(), beginning(&slots))
}

/// A carved entry's words as the struct, where its sequences have 16 bits.
fn as_struct(words: &[u64]) -> Option<declared::CarvedMftEntry> {
    Some(declared::CarvedMftEntry {
        offset: words[0] as usize,
        entry_number: words[1],
        sequence_number: words[2].try_into().ok()?,
        filename: Place {
            offset: words[3] as usize,
            length: words[4] as usize,
        },
        parent_entry: words[5],
        parent_sequence: words[6].try_into().ok()?,
        is_directory: words[7] != 0,
        is_in_use: words[8] != 0,
    })
}
