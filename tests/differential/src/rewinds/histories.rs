//! Journals as volumes write them: files and folders that are created, changed, renamed, moved and deleted, and entries that
//! are used again; and images with entries of the same keys.

use crate::image::ends::{name_at_a_sector_end, stored};
use crate::image::layout::{Entry as MftEntry, Name, FIRST, FLAGS, NUMBER, SEQUENCE};
use crate::journals::walks::FIRST_TIME;
use crate::names::cases::unit;
use crate::paths::library::Key;
use crate::random::Random;
use crate::records::layout::{Fields, Layout, V2, V3};

/// The reasons of a change.
pub const CREATE: u32 = 0x100;
pub const DELETE: u32 = 0x200;
pub const OLD_NAME: u32 = 0x1000;
pub const NEW_NAME: u32 = 0x2000;
pub const CLOSE: u32 = 0x8000_0000;
const OTHERS: [u32; 6] = [0x1, 0x2, 0x4, 0x800, 0x8000, 0x8000_0003];

/// The root, and folders that no record and no image tells of.
pub const ROOT: Key = [5, 5];
const UNKNOWN: [Key; 3] = [[77, 7], [300, 1], [0xffff_ffff_fffe, 65535]];

/// The entries that files get, the root's among them now and then.
const ENTRIES: [u64; 16] = [
    30,
    31,
    32,
    33,
    34,
    35,
    36,
    37,
    38,
    39,
    40,
    41,
    42,
    0xffff_ffff,
    0x1_0000_0005,
    0xffff_ffff_ffff,
];

/// The most units of a name.
const LONGEST: usize = 8;

/// The names of a deep folder: about as many as are followed.
const DEEP: [usize; 2] = [250, 262];

/// Which versions the records have.
#[derive(Debug, Clone, Copy)]
enum Versions {
    Two,
    Three,
    Both,
}

#[derive(Debug, Clone)]
struct File {
    key: Key,
    parent: Key,
    name: Vec<u8>,
    folder: bool,
}

/// A journal while it is written, and the files that there are.
pub struct History {
    pub journal: Vec<u8>,
    pub image: Vec<u8>,
    versions: Versions,
    files: Vec<File>,
    /// How often each of the entries was used.
    sequences: [u64; ENTRIES.len()],
}

/// Appends a record of a file, up to the next word. The name is the bytes, which may be an odd number.
pub fn append(journal: &mut Vec<u8>, layout: &Layout, [key, parent]: [Key; 2], name: &[u8], reason: u32) {
    let start = journal.len();
    let mut fields = Fields::example(layout, 0);
    fields.record_length = (layout.fixed + name.len()).next_multiple_of(8) as u32;
    let reference = |[entry, sequence]: Key| entry | sequence << 48;
    fields.file_reference[0] = reference(key);
    fields.parent_reference[0] = reference(parent);
    fields.usn = start as u64;
    fields.filetime = FIRST_TIME as u64 + 10_000_000 * start as u64;
    fields.reason = reason;
    fields.name_length = name.len() as u16;
    fields.append(layout, journal);
    journal.extend_from_slice(name);
    journal.resize(start + fields.record_length as usize, 0);
}

/// The bytes of a name: letters, seldom none, any units or an odd number of bytes.
fn name(random: &mut Random) -> Vec<u8> {
    let units = random.between(1, LONGEST);
    let any = random.one_in(4);
    let mut bytes: Vec<u8> = Vec::new();
    for _ in 0..units {
        let unit = match any {
            true => unit(random),
            false => 0x61 + random.below(26) as u16,
        };
        bytes.extend_from_slice(&unit.to_le_bytes());
    }
    match random.below(24) {
        0 => bytes.clear(),
        1 => bytes.push(random.number() as u8),
        2 => bytes.truncate(1),
        _ => {}
    }
    bytes
}

impl History {
    /// A journal of up to so many changes, on files of which some are older than it, and an image.
    pub fn new(random: &mut Random, changes: usize) -> Self {
        let versions = random.pick(&[
            Versions::Two,
            Versions::Two,
            Versions::Two,
            Versions::Both,
            Versions::Three,
        ]);
        let mut history = Self {
            journal: Vec::new(),
            image: Vec::new(),
            versions,
            files: Vec::new(),
            sequences: [0; ENTRIES.len()],
        };
        for _ in 0..random.below(8) {
            history.file(random);
        }
        let older = history.files.clone();
        for _ in 0..random.between(1, changes) {
            history.change(random);
            history.gap(random);
        }
        history.carve(random, &older);
        history
    }

    /// A folder in a folder and so on, about as deep as is followed, of which some are renamed or moved; and files in it.
    pub fn deep(random: &mut Random) -> Self {
        let mut history = Self {
            journal: Vec::new(),
            image: Vec::new(),
            versions: random.pick(&[Versions::Two, Versions::Three]),
            files: Vec::new(),
            sequences: [0; ENTRIES.len()],
        };
        let names = random.between(DEEP[0], DEEP[1]);
        let mut parent = random.pick(&[ROOT, [5, 0], UNKNOWN[0]]);
        for at in 0..names {
            let key = [1000 + at as u64, 1 + at as u64 % 3];
            let name = name(random);
            history.files.push(File {
                key,
                parent,
                name,
                folder: true,
            });
            parent = key;
        }
        let backward = random.one_in(2);
        for at in 0..names {
            let file = history.files[if backward { names - 1 - at } else { at }].clone();
            history.tell(random, &file, CREATE);
        }
        for _ in 0..4 {
            history.rename(random);
            history.file(random);
            let file = history.files.last().expect("a file was made").clone();
            history.tell(random, &file, CREATE);
        }
        history
    }

    /// The keys of files and of their parents, one at a time.
    pub fn key(&self, random: &mut Random) -> Key {
        match self.files.len() {
            0 => ROOT,
            files => {
                let file = &self.files[random.below(files)];
                random.pick(&[file.key, file.key, file.parent])
            }
        }
    }

    /// A folder: the root, one of the files', seldom an unknown one.
    fn folder(&self, random: &mut Random) -> Key {
        let folders: Vec<Key> = self
            .files
            .iter()
            .filter(|file| file.folder)
            .map(|file| file.key)
            .collect();
        match random.below(16) {
            0 => random.pick(&UNKNOWN),
            1..=3 => ROOT,
            4 => [5, random.pick(&[0, 1, 65535])],
            5 => self.key(random),
            _ if folders.is_empty() => ROOT,
            _ => random.pick(&folders),
        }
    }

    /// Makes a file of an entry that is free, or whose file is forgotten.
    fn file(&mut self, random: &mut Random) {
        let at = random.below(ENTRIES.len());
        self.sequences[at] += 1;
        let file = File {
            key: [ENTRIES[at], self.sequences[at]],
            parent: self.folder(random),
            name: name(random),
            folder: !random.one_in(3),
        };
        self.files.push(file);
    }

    /// A change of a file, with the records that tell of it.
    fn change(&mut self, random: &mut Random) {
        match random.below(16) {
            0..=4 => {
                self.file(random);
                let file = self.files.last().expect("a file was made").clone();
                self.tell(random, &file, CREATE);
                if random.one_in(2) {
                    self.tell(random, &file, CREATE | 0x2 | CLOSE);
                }
            }
            5..=10 => self.rename(random),
            11 | 12 => self.delete(random),
            13 | 14 => self.told_of(random, &OTHERS),
            _ => {
                let any = random.number() as u32;
                self.told_of(random, &[any, 0x3000, 0x1100, 0x3100, 0xffff_ffff, 0]);
            }
        }
    }

    /// A file gets another name, another folder or both. A folder may come into itself.
    fn rename(&mut self, random: &mut Random) {
        let Some(at) = self.any(random) else { return };
        let old = self.files[at].clone();
        if !random.one_in(8) {
            self.tell(random, &old, OLD_NAME);
        }
        let mut new = old;
        if !random.one_in(3) {
            new.name = name(random);
        }
        if random.one_in(2) {
            new.parent = self.folder(random);
        }
        self.files[at] = new.clone();
        if !random.one_in(8) {
            self.tell(random, &new, NEW_NAME);
            if random.one_in(2) {
                self.tell(random, &new, NEW_NAME | CLOSE);
            }
        }
    }

    fn delete(&mut self, random: &mut Random) {
        if let Some(at) = self.any(random) {
            let file = self.files.swap_remove(at);
            self.tell(random, &file, DELETE | CLOSE);
        }
    }

    /// A record of a file with one of these reasons.
    fn told_of(&mut self, random: &mut Random, reasons: &[u32]) {
        if let Some(at) = self.any(random) {
            let file = self.files[at].clone();
            let reason = random.pick(reasons);
            self.tell(random, &file, reason);
        }
    }

    fn any(&self, random: &mut Random) -> Option<usize> {
        (!self.files.is_empty()).then(|| random.below(self.files.len()))
    }

    fn tell(&mut self, random: &mut Random, file: &File, reason: u32) {
        let layout = match self.versions {
            Versions::Two => &V2,
            Versions::Three => &V3,
            Versions::Both => random.pick(&[&V2, &V3]),
        };
        append(&mut self.journal, layout, [file.key, file.parent], &file.name, reason);
    }

    /// Mostly nothing; else zero words, or a record of version 4.
    fn gap(&mut self, random: &mut Random) {
        match random.below(16) {
            0 => {
                let words = random.between(1, 9);
                self.journal.resize(self.journal.len() + 8 * words, 0);
            }
            1 => {
                let mut record = [0; 64];
                record[..6].copy_from_slice(&[64, 0, 0, 0, 4, 0]);
                self.journal.extend_from_slice(&record);
            }
            _ => {}
        }
    }

    /// An image with entries of some files as they are, of some as they were, and of their folders.
    fn carve(&mut self, random: &mut Random, older: &[File]) {
        if random.one_in(3) {
            return;
        }
        for file in older.iter().chain(&self.files) {
            if random.one_in(4) {
                self.image.extend(entry(random, file));
            }
        }
    }
}

/// An entry of a file, as far as its fields hold the numbers, its name as often as not at a sector's end.
fn entry(random: &mut Random, file: &File) -> Vec<u8> {
    let mut entry = MftEntry::new(FIRST, 0);
    let [number, sequence] = file.key;
    // Version 3 has keys without a sequence, which no entry has.
    entry.put(SEQUENCE, 2, sequence.max(1));
    entry.put(FLAGS, 2, random.number() % 4);
    entry.put(NUMBER, 4, number);
    let units = file
        .name
        .chunks_exact(2)
        .map(|unit| u16::from_le_bytes([unit[0], unit[1]]));
    let name = Name {
        parent: file.parent[0] | file.parent[1] << 48,
        namespace: random.pick(&[1, 1, 3, 0, 2]),
        units: units.collect(),
    };
    match random.one_in(2) {
        true => name_at_a_sector_end(random, &mut entry, &name),
        false => {
            entry.name(&name);
        }
    }
    stored(random, entry.end())
}
