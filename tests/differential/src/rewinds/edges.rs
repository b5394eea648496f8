//! The exhaustive rewinds; they depend on no seed.

use super::calls::{next, start, Both, Told};
use super::histories::{append, CREATE, DELETE, NEW_NAME, OLD_NAME, ROOT};
use super::library::START_WORDS;
use super::model::{Listed, Next};
use super::whole::{rewind, unexpected, Before, Caller, Made, Rewound};
use crate::difference::Finding;
use crate::image::layout::{Entry as MftEntry, Name, ENTRY, NAME, RESIDENT, SECTOR_ENDS};
use crate::names::cases::bytes_of;
use crate::paths::cases::carve;
use crate::paths::edges::under;
use crate::paths::library::{path_resolve, Key, Slots, Sources, PATH_FIELDS, SLOT_WORDS};
use crate::paths::lists::Room;
use crate::paths::pair::{Added, Pair, STORED};
use crate::records::answers::listed_by_rust;
use crate::records::edges::example;
use crate::records::layout::{Layout, V2, V3};
use crate::usn::UsnRecord;

/// The most words that a chain can take.
pub const LONGEST_CHAIN: usize = 771;

/// How many folders stand in each other: short, and around as many as are followed.
const DEPTHS: [usize; 9] = [0, 1, 2, 254, 255, 256, 257, 258, 259];

/// A record: its file and its folder, its name and the reasons of the change.
pub type Change<'a> = (Key, Key, &'a str, u32);

/// A journal of records, with the list of their places.
pub struct Journal {
    pub bytes: Vec<u8>,
    pub list: Vec<usize>,
}

impl Journal {
    pub fn of(layout: &Layout, records: &[Change]) -> Self {
        let (mut bytes, mut list) = (Vec::new(), Vec::new());
        for &(key, parent, name, reason) in records {
            let units: Vec<u16> = name.encode_utf16().collect();
            let start = bytes.len();
            append(&mut bytes, layout, [key, parent], &bytes_of(&units), reason);
            list.extend([start, bytes.len() - start]);
        }
        Self { bytes, list }
    }

    pub fn names(&self) -> Sources<'_> {
        Sources {
            journal: &self.bytes,
            image: &[],
        }
    }

    /// The Rust's records at the listed places.
    pub fn records(&self) -> Vec<UsnRecord> {
        let offsets = self.list.chunks_exact(2).map(|place| place[0]);
        offsets
            .map(|offset| listed_by_rust(&self.bytes, offset).expect("a record is listed").2)
            .collect()
    }
}

/// Steps with text and without in turn, each text first a byte short, with chains just full, short and long.
#[derive(Default)]
struct InTurn {
    steps: usize,
}

impl<'a> Caller<'a> for InTurn {
    fn between(&mut self, _: &Rewound<'a, '_>) -> Result<(), Finding> {
        Ok(())
    }

    fn told(&mut self) -> (Told, bool) {
        self.steps += 1;
        match self.steps % 3 {
            0 => (Told::Chain, false),
            _ => (Told::Path, true),
        }
    }

    fn room(&mut self, full: Room) -> Room {
        let chain = [full.chain, full.chain.saturating_sub(1), LONGEST_CHAIN][self.steps % 3];
        Room { chain, ..full }
    }
}

/// A whole rewind with tables that are just large enough, and others.
fn whole(listed: &Listed, records: &[UsnRecord], before: Before, more: usize) -> Result<(), Finding> {
    let needed = before.needed(listed).expect("the records and the table are sound");
    let words = [SLOT_WORDS * needed + more, SLOT_WORDS * needed + 2 * more];
    rewind(
        listed,
        records,
        before,
        words,
        &mut InTurn::default(),
        &mut Made::default(),
    )
}

/// What the scope says of rewinds: record E, and a file that is renamed.
pub fn known() -> Result<u64, Finding> {
    let e = Journal {
        list: vec![0, 64],
        bytes: example(&V2),
    };
    let renamed = [([42, 3], ROOT, "a", OLD_NAME), ([42, 3], ROOT, "b", NEW_NAME)];
    let renamed = Journal::of(&V2, &renamed);
    says(&e, &[".\\ab"], ".\\ab")?;
    says(&renamed, &[".\\a", ".\\b"], ".\\a")?;
    Ok(2)
}

/// From an empty table the records have these paths, and 42:3 this one in the first table.
fn says(journal: &Journal, paths: &[&str], first: &str) -> Result<(), Finding> {
    let listed = Listed::of(journal.names(), &journal.list);
    whole(&listed, &journal.records(), Before::empty(), 0)?;
    let (mut table, mut forward) = (Both::unused(SLOT_WORDS), Both::unused(SLOT_WORDS));
    let state = start(&listed, &mut table, 0, &mut forward, START_WORDS)?;
    let mut state = state.map_err(|refusal| unexpected("rewind_start", "a state", &refusal.to_string()))?;
    for path in paths {
        let room = Room {
            chain: 0,
            text: path.len(),
            out: Told::Path.words(),
        };
        match next(&listed, &mut forward, state, Told::Path, room)? {
            Ok(Next::Record(step)) if step.text == *path => state = step.state,
            other => return Err(unexpected("a step", path, &format!("{other:?}"))),
        }
    }
    let mut text = vec![0; first.len()];
    let slots = Slots {
        words: table.lent(),
        used: 1,
    };
    let mut out = [0; PATH_FIELDS.len()];
    let number = path_resolve(journal.names(), slots, [42, 3], &mut [], &mut text, &mut out);
    match number == 0 && text == first.as_bytes() {
        true => Ok(()),
        false => Err(unexpected(
            "path_resolve of 42:3 in the first table",
            first,
            &format!("{text:?}"),
        )),
    }
}

/// Every journal of up to three records of two files, each in the root or in the other file, created, renamed from and to
/// and deleted, with an empty table, and those of up to two records with tables that know the files.
pub fn small() -> Result<u64, Finding> {
    const KEYS: [Key; 2] = [[42, 3], [43, 3]];
    const NAMES: [&str; 3] = ["a", "b", "c"];
    let every: Vec<(Key, Key, u32)> = [0, 1]
        .iter()
        .flat_map(|&at| [ROOT, KEYS[1 - at]].map(|parent| (KEYS[at], parent)))
        .flat_map(|(key, parent)| [CREATE, OLD_NAME, NEW_NAME, DELETE].map(|reason| (key, parent, reason)))
        .collect();
    let mut cases = 0;
    for count in 0..=3 {
        for number in 0..every.len().pow(count) {
            let mut rest = number;
            let mut records = Vec::new();
            for name in &NAMES[..count as usize] {
                let (key, parent, reason) = every[rest % every.len()];
                records.push((key, parent, *name, reason));
                rest /= every.len();
            }
            for layout in [&V2, &V3] {
                let journal = Journal::of(layout, &records);
                let listed = Listed::of(journal.names(), &journal.list);
                whole(&listed, &journal.records(), Before::empty(), number % 8)?;
                cases += 1;
                if count == 3 {
                    continue;
                }
                for known in [&KEYS[..1], &KEYS[1..], &KEYS[..], &[[43, 0], [42, 0]]] {
                    let before = table(&journal, known)?;
                    whole(&listed, &journal.records(), before, number % 8)?;
                    cases += 1;
                }
            }
        }
    }
    Ok(cases)
}

/// A table that knows these keys, the second in the first; their names are bytes of the journal.
fn table(journal: &Journal, keys: &[Key]) -> Result<Before, Finding> {
    let mut pair = Pair::empty(journal.names(), SLOT_WORDS * keys.len());
    let length = journal.bytes.len().min(2) as u64;
    for (at, &key) in keys.iter().enumerate() {
        let parent = if at == 0 { ROOT } else { keys[at - 1] };
        let slot = under(parent, key, [0, 0, length]);
        pair.store(pair.given(), Added::One { slot, replace: true }, STORED)?;
    }
    Ok(Before::of(pair).expect("the Rust has the keys"))
}

/// Folders in each other, created from the top and from the bottom, under the root and an unknown one, and a file in the
/// last. Where there are 257 of them its path ends unresolved.
pub fn deep() -> Result<u64, Finding> {
    let mut cases = 0;
    for depth in DEPTHS {
        for top in [ROOT, [77, 7]] {
            for backward in [false, true] {
                let key = |at: usize| if at == 0 { top } else { [1000 + at as u64, 1] };
                let mut records: Vec<Change> = (1..=depth).map(|at| (key(at), key(at - 1), "a", CREATE)).collect();
                if backward {
                    records.reverse();
                }
                records.push(([42, 3], key(depth), "b", CREATE));
                let journal = Journal::of(&V2, &records);
                let listed = Listed::of(journal.names(), &journal.list);
                whole(&listed, &journal.records(), Before::empty(), 0)?;
                cases += 1;
            }
        }
    }
    Ok(cases)
}

/// A folder whose name begins at every offset around a sector's end of its entry, which seeds the table, and a file that is
/// created in it and renamed.
pub fn sector_ends() -> Result<u64, Finding> {
    let changes = [([43, 3], [42, 3], "a", CREATE), ([43, 3], [42, 3], "b", NEW_NAME)];
    let journal = Journal::of(&V2, &changes);
    let mut cases = 0;
    let mut made = Made::default();
    for (end, units) in SECTOR_ENDS.into_iter().flat_map(|end| [1, 3].map(|units| (end, units))) {
        for start in end - 2 * units..=(end + 1).min(ENTRY - 2 * units) {
            let mut entry = MftEntry::new(start - RESIDENT - NAME, 0);
            entry.fitting_name(&Name::of(units, 1));
            let image = entry.ended();
            let names = Sources {
                image: &image,
                ..journal.names()
            };
            let list = carve(&image);
            let mut pair = Pair::empty(names, SLOT_WORDS);
            let added = Added::Listed {
                entries: &list.entries,
                rust: Some(&list.rust),
            };
            pair.store(pair.given(), added, STORED)?;
            let before = Before::of(pair).expect("the Rust has the keys");
            let listed = Listed::of(names, &journal.list);
            let words = [2 * SLOT_WORDS; 2];
            rewind(
                &listed,
                &journal.records(),
                before,
                words,
                &mut InTurn::default(),
                &mut made,
            )?;
            cases += 1;
        }
    }
    match made.restored {
        0 => Err(unexpected("rewinds", "paths with names that restoring changes", "none")),
        _ => Ok(cases),
    }
}

/// Every offset in and around a journal with records of versions 2, 3 and 4, zeros and rubbish, alone and behind a
/// record: a start, and a step at each position.
pub fn offsets() -> Result<u64, Finding> {
    let mut journal = Journal::of(&V3, &[([42, 3], ROOT, "a", CREATE)]).bytes;
    journal.extend([64, 0, 0, 0, 4, 0].iter().chain(&[0; 58]));
    journal.extend([0x5a; 24]);
    let sound = journal.len();
    journal.extend(example(&V2));
    let names = Sources {
        journal: &journal,
        image: &[],
    };
    let far = [usize::MAX, usize::MAX - 7, usize::MAX - 63, 1 << 63, 1 << 32];
    let mut cases = 0;
    for offset in (0..journal.len() + 70).chain(far) {
        for list in [
            vec![offset, 7],
            vec![sound, 64, offset, 7],
            vec![offset, 0, sound, 0],
            vec![offset],
        ] {
            let listed = Listed::of(names, &list);
            let slots = SLOT_WORDS * 2;
            let (mut first, mut forward) = (Both::unused(slots), Both::unused(slots));
            if let Ok(mut state) = start(&listed, &mut first, 0, &mut forward, START_WORDS)? {
                for position in [0, 1, 2, 3, usize::MAX] {
                    state.position = position;
                    for told in [Told::Path, Told::Chain] {
                        let room = Room {
                            chain: 3,
                            text: 20,
                            out: told.words(),
                        };
                        // The answer is held to the scope's; which it is does not matter here.
                        let _ = next(&listed, &mut forward.clone(), state, told, room)?;
                    }
                }
            }
            cases += 1;
        }
    }
    Ok(cases)
}
