//! Paths of deep folders: tables in which each key stands in the one before it, and the path of the last.

use crate::cost::{clock, Cost};
use crate::names;
use crate::options::Options;
use crate::paths::library::{self, Key, Slots, Sources, PLACE_WORDS, SLOT_WORDS};
use crate::random::Random;
use crate::rewind::{EntryInfo, EntryKey, RewindEngine};
use crate::sum::Sum;
use crate::table::{Table, Task, Unit};

/// How many folders stand one in the other below the root.
const DEPTHS: [usize; 4] = [4, 16, 64, 256];

/// How often a path is asked for in a timing.
const TIMES: usize = 1_000;

/// The first entry below the root, and the sequence of all.
const FIRST: u64 = 6;
const SEQUENCE: u64 = 1;

/// Folders in each other: their names, one after another in UTF-16, and the slots of the table.
struct Ladder {
    names: Vec<u8>,
    slots: Vec<u64>,
    engine: RewindEngine,
    depth: usize,
}

/// Times the paths and prints the table. Every timing must give what the Rust gives.
pub fn measure(options: &Options) -> Result<(), String> {
    println!("paths: the last of so many folders in each other, {TIMES} times, seed {}", options.seed);
    let mut table = Table::new(Unit::Records);
    for depth in DEPTHS {
        let ladder = &Ladder::generated(options.seed, depth);
        let (_, expected) = ladder.rust();
        let task = Task {
            size: TIMES,
            expected,
            lent: [ladder.names.len(), 0],
        };
        table.add(
            &format!("path, {depth} names"),
            &task,
            Some(&|| ladder.ours()),
            Some(&|| ladder.rust()),
        )?;
    }
    table.print();
    Ok(())
}

impl Ladder {
    fn generated(seed: u64, depth: usize) -> Self {
        let mut random = Random::of_case(seed, 2, depth as u64);
        let mut ladder = Self {
            names: Vec::new(),
            slots: Vec::with_capacity(depth * SLOT_WORDS),
            engine: RewindEngine::new(),
            depth,
        };
        let mut parent = 5;
        for entry in FIRST..FIRST + depth as u64 {
            let name = names::short_name(&mut random);
            let (offset, length) = (ladder.names.len() as u64, 2 * name.len() as u64);
            ladder.names.extend(name.iter().flat_map(|unit| unit.to_le_bytes()));
            ladder
                .slots
                .extend([entry, SEQUENCE, parent, SEQUENCE, 0, offset, length]);
            let info = EntryInfo {
                name: String::from_utf16_lossy(&name),
                parent: EntryKey::new(parent, SEQUENCE as u16),
            };
            ladder.engine.insert(EntryKey::new(entry, SEQUENCE as u16), info);
            parent = entry;
        }
        ladder
    }

    /// The entry of the last folder.
    fn last(&self) -> u64 {
        FIRST + self.depth as u64 - 1
    }

    fn ours(&self) -> (Cost, Sum) {
        let sources = Sources {
            journal: &self.names,
            image: &[],
        };
        let slots = Slots {
            words: &self.slots,
            used: self.depth,
        };
        let key: Key = [self.last(), SEQUENCE];
        let mut chain = vec![0; self.depth * PLACE_WORDS];
        let mut text = vec![0; self.depth * (1 + names::LONGEST_TEXT) + 1];
        let mut out = [0; library::PATH_FIELDS.len()];
        let (cost, length) = clock(|| {
            for _ in 0..TIMES {
                let number = library::path_resolve(sources, slots, key, &mut chain, &mut text, &mut out);
                assert_eq!(number, 0, "a path is answered");
            }
            out[4] as usize
        });
        (cost, told(&text[..length]))
    }

    fn rust(&self) -> (Cost, Sum) {
        let key = EntryKey::new(self.last(), SEQUENCE as u16);
        let (cost, path) = clock(|| {
            let mut path = String::new();
            for _ in 0..TIMES {
                path = self.engine.resolve_path(&key);
            }
            path
        });
        (cost, told(path.as_bytes()))
    }
}

/// What is told of a path.
fn told(text: &[u8]) -> Sum {
    let mut sum = Sum::default();
    sum.add_text(text);
    sum
}
