//! The exhaustive tables and paths; they depend on no seed.

use super::library::{Key, Place, Sources, CHAIN_WORDS, SLOT_WORDS};
use super::lists::Room;
use super::model::Slot;
use super::pair::{Added, Given, Pair, Question, STORED, TOLD};
use super::programs::full;
use crate::difference::Finding;
use crate::lent::untouched;
use crate::names::cases::bytes_of;

/// The most words that a chain can take.
const LONGEST_CHAIN: usize = 771;

/// The lengths of ladders: short ones, and those around as many names as are followed.
const LADDERS: [usize; 11] = [0, 1, 2, 254, 255, 256, 257, 258, 259, 260, 300];

/// Numbers of each count of decimal digits are below and from these on.
const TENS: [u64; 8] = [
    1,
    10,
    100,
    1000,
    10_000,
    1 << 32,
    10_000_000_000,
    10_000_000_000_000_000_000,
];

/// Sequences of the root, as a key and as a parent.
const ROOT_SEQUENCES: [u64; 6] = [0, 1, 4, 5, 6, 65535];

/// The letters in journal and image, and where they lie.
pub struct Letters {
    journal: Vec<u8>,
    image: Vec<u8>,
}

impl Letters {
    pub fn new() -> Self {
        let units = |from: u16| -> Vec<u16> { (from..from + 26).collect() };
        Self {
            journal: bytes_of(&units(0x61)),
            image: bytes_of(&units(0x41)),
        }
    }

    pub fn names(&self) -> Sources<'_> {
        Sources {
            journal: &self.journal,
            image: &self.image,
        }
    }
}

/// A letter, every other one in the image.
fn letter(at: usize) -> Place {
    [at as u64 % 2, 2 * (at as u64 % 26), 2]
}

/// The slot of a key under its parent.
pub fn under(parent: Key, key: Key, [source, offset, length]: Place) -> Slot {
    [key[0], key[1], parent[0], parent[1], source, offset, length]
}

/// The keys of a ladder, from the top.
pub fn step(at: usize) -> Key {
    [1000 + at as u64, at as u64 % 7]
}

/// A ladder of so many letters, each under the one before and the first under `top`.
pub fn ladder(top: Key, names: usize) -> Vec<Slot> {
    let parent = |at: usize| if at == 0 { top } else { step(at - 1) };
    (0..names).map(|at| under(parent(at), step(at), letter(at))).collect()
}

/// The words of carved entries that say the same as slots.
pub fn listed(slots: &[Slot]) -> Vec<u64> {
    let entry = |slot: &Slot| [7, slot[0], slot[1], slot[5], slot[6], slot[2], slot[3], 1, 0];
    slots.iter().flat_map(entry).collect()
}

/// Inserts into a table that has room.
pub fn insert(pair: &mut Pair, slot: Slot) -> Result<(), Finding> {
    let added = Added::One { slot, replace: true };
    pair.store(pair.given(), added, STORED).map(|_| ())
}

/// An empty table with room for these slots and no more, and then with them.
pub fn table<'a>(names: Sources<'a>, slots: &[Slot]) -> Result<Pair<'a>, Finding> {
    let mut pair = Pair::empty(names, SLOT_WORDS * slots.len());
    for &slot in slots {
        insert(&mut pair, slot)?;
    }
    Ok(pair)
}

/// The path of a key with every room: chains, texts and answers just full, short and longer.
pub fn every_room(pair: &Pair, given: Given, key: Key) -> Result<(), Finding> {
    let question = pair.ask(given, key)?;
    let Room { chain, text, .. } = full(&question);
    let short = |by: usize| chain.saturating_sub(by);
    for chain in [
        chain,
        short(1),
        short(2),
        short(3),
        0,
        chain + 1,
        chain + 3,
        LONGEST_CHAIN,
    ] {
        for out in [CHAIN_WORDS, 0, CHAIN_WORDS - 1, CHAIN_WORDS + 1, CHAIN_WORDS + 3] {
            pair.chain(&question, Room { chain, text: 0, out })?;
        }
        for text in [text, text.saturating_sub(1), 0, text + 1, text + 9] {
            for out in [TOLD, 0, TOLD - 1, TOLD + 1, TOLD + 3] {
                pair.resolve(&question, Room { chain, text, out })?;
            }
        }
    }
    Ok(())
}

/// The path of a key with a text a byte short, then with enough, and with chains that are short and long.
pub fn some_rooms(pair: &Pair, question: &Question) -> Result<(), Finding> {
    let full = full(question);
    let text = full.text - 1;
    pair.resolve(question, Room { text, ..full })?;
    pair.resolve(question, full)?;
    let out = CHAIN_WORDS;
    pair.chain(question, Room { out, ..full })?;
    for chain in [full.chain.saturating_sub(1), LONGEST_CHAIN] {
        pair.resolve(question, Room { chain, ..full })?;
        pair.chain(question, Room { chain, out, ..full })?;
    }
    Ok(())
}

/// Holds a path to the text that is known, too.
fn known(pair: &Pair, key: Key, text: &str) -> Result<(), Finding> {
    let question = pair.ask(pair.given(), key)?;
    some_rooms(pair, &question)?;
    match &question.told {
        Ok(told) if told.text == text => Ok(()),
        other => Err(Finding {
            call: format!("path of {key:?}"),
            what: "the scope names another text".to_string(),
            rust: text.to_string(),
            ours: format!("{other:?}"),
        }),
    }
}

/// P9, with the texts that the scope gives: 256 and 257 names under 5:5, and 9:1 as its own parent.
pub fn p9(letters: &Letters) -> Result<u64, Finding> {
    let a = [0, 0, 2];
    for (names, end) in [(256, "."), (257, "UNRESOLVED(5:5)")] {
        let mut slots = ladder([5, 5], names);
        slots.iter_mut().for_each(|slot| slot[4..].copy_from_slice(&a));
        let pair = table(letters.names(), &slots)?;
        known(&pair, step(names - 1), &(end.to_string() + &"\\a".repeat(names)))?;
    }
    let pair = table(letters.names(), &[under([9, 1], [9, 1], a)])?;
    known(&pair, [9, 1], &("UNRESOLVED(9:1)".to_string() + &"\\a".repeat(257)))?;
    Ok(3)
}

/// Ladders under the root and under an unknown key, inserted from either end and seeded; the paths of their last keys.
pub fn ladders(letters: &Letters) -> Result<u64, Finding> {
    let mut cases = 0;
    for top in [[5, 5], [5, 0], [77, 7]] {
        for names in LADDERS {
            let slots = ladder(top, names);
            let reversed: Vec<Slot> = slots.iter().rev().copied().collect();
            for slots in [&slots, &reversed] {
                let pair = table(letters.names(), slots)?;
                let mut seeded = Pair::empty(letters.names(), SLOT_WORDS * names);
                seeded.store(seeded.given(), Added::list(&listed(slots)), STORED)?;
                for at in names.saturating_sub(4)..names + 1 {
                    for pair in [&pair, &seeded] {
                        some_rooms(pair, &pair.ask(pair.given(), step(at))?)?;
                        cases += 1;
                    }
                }
            }
        }
    }
    Ok(cases)
}

/// Cycles of one to six keys, alone and with a key beside that leads into them.
pub fn cycles(letters: &Letters) -> Result<u64, Finding> {
    let mut cases = 0;
    for length in 1..=6 {
        let mut slots = ladder(step(length - 1), length);
        slots.push(under(step(0), [8, 8], letter(20)));
        let pair = table(letters.names(), &slots)?;
        for key in (0..length).map(step).chain([[8, 8]]) {
            some_rooms(&pair, &pair.ask(pair.given(), key)?)?;
            cases += 1;
        }
    }
    Ok(cases)
}

/// Entry 5 of any sequence as a key, which is stored and never looked up, and as a parent; its neighbours are no root.
pub fn roots(letters: &Letters) -> Result<u64, Finding> {
    let mut cases = 0;
    for entry in [4, 5, 6, 5 + (1 << 32), 5 + (1 << 48)] {
        for sequence in ROOT_SEQUENCES {
            let key = [entry, sequence];
            let slots = [under([9, 9], key, letter(1)), under(key, [42, 3], letter(2))];
            for stored in [&slots[..], &slots[1..], &slots[..1]] {
                let pair = table(letters.names(), stored)?;
                for asked in [key, [42, 3], [entry, 77]] {
                    every_room(&pair, pair.given(), asked)?;
                    cases += 1;
                }
            }
        }
    }
    Ok(cases)
}

/// Tables of no to three slots and no to six words more, with every number of slots used.
fn shapes() -> Vec<[usize; 3]> {
    let with = |slots| (0..7).flat_map(move |tail| (0..=slots).map(move |used| [slots, tail, used]));
    (0..4).flat_map(with).collect()
}

/// Such a table, and the slots that are put into it.
fn filled(letters: &Letters, [slots, tail, used]: [usize; 3]) -> Result<Pair<'_>, Finding> {
    let mut pair = Pair::empty(letters.names(), SLOT_WORDS * slots + tail);
    (0..used).try_for_each(|at| insert(&mut pair, named(at, at)))?;
    Ok(pair)
}

fn named(at: usize, name: usize) -> Slot {
    under([5, 5], step(at), letter(name))
}

/// Known and new keys, each stored twice, in tables up to full.
pub fn full_tables(letters: &Letters) -> Result<u64, Finding> {
    let mut cases = 0;
    for shape in shapes() {
        for at in 0..shape[0] + 2 {
            for replace in [true, false] {
                let mut pair = filled(letters, shape)?;
                for name in [9, 10] {
                    let slot = named(at, name);
                    pair.store(pair.given(), Added::One { slot, replace }, STORED)?;
                }
                pair.compare_keys()?;
                cases += 1;
            }
        }
    }
    Ok(cases)
}

/// Lists of known and new keys, each once or twice, up to one more than there is room for.
pub fn full_lists(letters: &Letters) -> Result<u64, Finding> {
    let mut cases = 0;
    for shape in shapes() {
        let [slots, _, used] = shape;
        for (first, end) in (0..=used).flat_map(|first| (used..slots + 2).map(move |end| (first, end))) {
            for names in [&[9][..], &[9, 10]] {
                let keys = names
                    .iter()
                    .flat_map(|&name| (first..end).map(move |at| named(at, name)));
                let entries = listed(&keys.collect::<Vec<Slot>>());
                let mut pair = filled(letters, shape)?;
                pair.store(pair.given(), Added::list(&entries), STORED)?;
                pair.compare_keys()?;
                cases += 1;
            }
        }
    }
    Ok(cases)
}

/// Tables with equal keys, of which the lowest slot counts, and with keys in slots that are not used.
pub fn equal_keys(letters: &Letters) -> Result<u64, Finding> {
    let key = [42, 3];
    let mut cases = 0;
    for others in 0..8_usize {
        // Each bit says whether a slot has the key or another.
        let slots = (0..3).map(|at| match others >> at & 1 {
            0 => under([5, 5], key, letter(at)),
            _ => under(key, step(at), letter(at)),
        });
        let words: Vec<u64> = slots.flatten().chain((0..SLOT_WORDS).map(untouched)).collect();
        for used in 0..=3 {
            for replace in [None, Some(true), Some(false)] {
                let mut pair = Pair::new(letters.names(), words.clone(), used);
                if let Some(replace) = replace {
                    let slot = under([77, 7], key, letter(12));
                    pair.store(pair.given(), Added::One { slot, replace }, STORED)?;
                }
                for asked in [key, step(0), step(1), step(2)] {
                    every_room(&pair, pair.given(), asked)?;
                    cases += 1;
                }
            }
        }
    }
    Ok(cases)
}

/// Keys that are equal in their low bits: one stored, another asked for and then stored beside it.
pub fn like_keys(letters: &Letters) -> Result<u64, Finding> {
    let entries = [42, 42 + (1 << 16), 42 + (1 << 32), 42 + (1 << 48), 42 + (1 << 63)];
    let sequences = [3, 3 + (1 << 8), 3 + (1 << 16), 3 + (1 << 32), 3 + (1 << 63)];
    let keys: Vec<Key> = entries
        .iter()
        .flat_map(|&entry| sequences.map(|sequence| [entry, sequence]))
        .collect();
    let mut cases = 0;
    for &stored in &keys {
        for &key in &keys {
            let mut pair = Pair::empty(letters.names(), 2 * SLOT_WORDS);
            insert(&mut pair, under([5, 5], stored, letter(0)))?;
            for replace in [false, true] {
                some_rooms(&pair, &pair.ask(pair.given(), key)?)?;
                let slot = under([77, 7], key, letter(1));
                pair.store(pair.given(), Added::One { slot, replace }, STORED)?;
            }
            cases += 1;
        }
    }
    Ok(cases)
}

/// Ends with keys of every number of digits, unknown and unresolved. The Rust has those of 16-bit sequences.
pub fn digits(letters: &Letters) -> Result<u64, Finding> {
    let numbers: Vec<u64> = TENS
        .iter()
        .flat_map(|ten| [ten - 1, *ten])
        .chain([65535, 65536, u64::MAX])
        .collect();
    let mut cases = 0;
    for &entry in &numbers {
        for &sequence in &numbers {
            let key = [entry, sequence];
            for slots in [&[][..], &[under(key, key, letter(0))]] {
                let pair = table(letters.names(), slots)?;
                some_rooms(&pair, &pair.ask(pair.given(), key)?)?;
                cases += 1;
            }
        }
    }
    Ok(cases)
}
