//! What a random program works with: the bytes that names lie in, a few keys that meet again and again, and carved
//! entries.

use super::library::{Key, Place, Sources};
use super::model::Slot;
use crate::carve::{carve_mft_entries, CarvedMftEntry};
use crate::image::cases as images;
use crate::image::ends::{name_at_a_sector_end, stored};
use crate::image::layout::{Entry, Name, ENTRY, FIRST, FIRST_ATTRIBUTE, FLAGS, NUMBER, SECTOR, SEQUENCE};
use crate::image::restored::restored;
use crate::library::{mft_carve_entries, ACCEPTED, ENTRY_WORDS, MFT_CARVING_FIELDS};
use crate::names::cases::unit;
use crate::random::Random;

/// Entry numbers and sequences at which something may go wrong; the root's among them.
const ENTRIES: [u64; 14] = [
    0,
    4,
    5,
    5,
    6,
    9,
    10,
    42,
    99,
    0xffff_ffff,
    0x1_0000_0005,
    0xffff_ffff_ffff,
    u64::MAX - 1,
    u64::MAX,
];
const SEQUENCES: [u64; 8] = [0, 1, 3, 5, 9, 10, 256, 65535];

/// Sequences of which the low 16 or 32 bits are another's; the Rust has none of these.
const WIDE: [u64; 5] = [3, 65539, 0x1_0000_0003, 0xffff_ffff_0000_0003, u64::MAX];

/// The most keys that a program mostly uses, and the most units of a random name.
const KEYS: usize = 12;
const LONGEST: usize = 6;

/// The carved entries of an image: our list and the Rust's.
#[derive(Default)]
pub struct Carved {
    pub entries: Vec<u64>,
    pub rust: Vec<CarvedMftEntry>,
}

pub struct World {
    pub kind: &'static str,
    pub journal: Vec<u8>,
    pub image: Vec<u8>,
    pub carved: Carved,
    pub keys: Vec<Key>,
    /// Any key may be the parent of any other; else a key's parent is mostly one before it, so that
    /// chains end.
    cyclic: bool,
}

impl World {
    pub fn new(random: &mut Random) -> Self {
        let (kind, sequences, cyclic) = match random.below(16) {
            0 => ("sequences of 64 bits", &WIDE[..], false),
            1 => ("cycles", &SEQUENCES[..], true),
            _ => ("chains", &SEQUENCES[..], false),
        };
        let mut world = Self {
            kind,
            journal: bytes(random, 60),
            image: Vec::new(),
            carved: Carved::default(),
            keys: keys(random, sequences),
            cyclic,
        };
        match random.below(8) {
            0..=3 => {
                for _ in 0..random.between(1, 5) {
                    let entry = world.entry(random);
                    world.image.extend(entry);
                }
                if random.one_in(4) {
                    let entry = world.entry(random);
                    world.image.extend(&entry[..random.below(ENTRY)]);
                }
                world.carved = carve(&world.image);
            }
            4 => {
                images::fill(random, &mut world.image);
                world.carved = carve(&world.image);
            }
            _ => world.image = bytes(random, 30),
        }
        world
    }

    pub fn names(&self) -> Sources<'_> {
        Sources {
            journal: &self.journal,
            image: &self.image,
        }
    }

    /// One of the keys, seldom any other.
    pub fn key(&self, random: &mut Random) -> Key {
        match random.below(16) {
            0 => [random.pick(&ENTRIES), random.number() % 65536],
            1 => [5, random.pick(&SEQUENCES)],
            _ => random.pick(&self.keys),
        }
    }

    /// A key and its parent.
    fn keys(&self, random: &mut Random) -> [Key; 2] {
        let at = random.below(self.keys.len());
        let parent = match random.below(32) {
            0..=3 => [5, random.pick(&SEQUENCES)],
            4 => self.key(random),
            _ if self.cyclic => random.pick(&self.keys),
            _ if at == 0 => random.pick(&[[5, 5], [77, 7]]),
            _ => self.keys[at - random.between(1, at.min(3))],
        };
        [self.keys[at], parent]
    }

    /// What an insertion stores, the place inside but for one in `outside` times.
    pub fn slot(&self, random: &mut Random, outside: usize) -> Slot {
        let [key, parent] = self.keys(random);
        let [source, offset, length] = self.place(random, outside);
        [key[0], key[1], parent[0], parent[1], source, offset, length]
    }

    /// A list of carved entries made by hand, and now and then words behind the last whole one.
    pub fn list(&self, random: &mut Random) -> Vec<u64> {
        let mut list = Vec::new();
        for _ in 0..random.below(7) {
            let [key, parent] = self.keys(random);
            let [_, offset, length] = self.image_place(random, 64);
            let flags = [random.number() % 3, random.number() % 3];
            list.extend([random.number(), key[0], key[1], offset, length]);
            list.extend([parent[0], parent[1], flags[0], flags[1]]);
        }
        for _ in 0..random.pick(&[0, 0, 1, 5, 8]) {
            list.push(random.number());
        }
        list
    }

    /// A name's place in the image, inside but for one in `outside` times.
    pub fn image_place(&self, random: &mut Random, outside: usize) -> Place {
        in_slice(random, 1, self.image.len(), outside)
    }

    /// A name's place in journal or image, inside but for one in `outside` times.
    pub fn place(&self, random: &mut Random, outside: usize) -> Place {
        match random.below(2) {
            0 => in_slice(random, 0, self.journal.len(), outside),
            _ => {
                let source = random.pick(&[1, 1, 2, 256, 1 << 32, u64::MAX]);
                in_slice(random, source, self.image.len(), outside)
            }
        }
    }

    /// An MFT entry with one of the keys, as far as its fields hold them, its name as often as not at a sector's end. Now
    /// and then it is none that is carved, whose places are decoded all the same: by the array alone where it begins FILE.
    fn entry(&self, random: &mut Random) -> Vec<u8> {
        let [key, parent] = self.keys(random);
        let mut entry = Entry::new(FIRST, 0);
        entry.put(SEQUENCE, 2, key[1]);
        entry.put(FLAGS, 2, random.number() % 4);
        entry.put(NUMBER, 4, key[0]);
        let name = Name {
            parent: (parent[0] % (1 << 48)) | (parent[1] << 48),
            namespace: random.pick(&[1, 1, 3, 0, 2]),
            units: (0..random.between(1, LONGEST)).map(|_| unit(random)).collect(),
        };
        match random.one_in(2) {
            true => name_at_a_sector_end(random, &mut entry, &name),
            false => {
                entry.name(&name);
            }
        }
        let mut entry = entry.end();
        // What the names do not fill; it is decoded too.
        for at in (entry.next + 4..ENTRY).step_by(8) {
            entry.put(at, 8, random.number());
        }
        match random.below(24) {
            0 => entry.put(SEQUENCE, 2, 0),
            1 => entry.put(FIRST_ATTRIBUTE, 2, random.pick(&[1016, 1017, 2048, 65535])),
            2 => entry.lay(random.below(4), b"X"),
            _ => {}
        }
        stored(random, entry)
    }
}

/// A few keys of a few entries, most of them with several sequences.
fn keys(random: &mut Random, sequences: &[u64]) -> Vec<Key> {
    let entries: Vec<u64> = (0..random.between(1, 8)).map(|_| random.pick(&ENTRIES)).collect();
    let sequences: Vec<u64> = (0..random.between(1, 3)).map(|_| random.pick(sequences)).collect();
    let mut keys: Vec<Key> = Vec::new();
    for _ in 0..random.between(1, KEYS) {
        let key = [random.pick(&entries), random.pick(&sequences)];
        if !keys.contains(&key) {
            keys.push(key);
        }
    }
    keys
}

/// The units of names, and now and then an odd byte; seldom none.
fn bytes(random: &mut Random, most: usize) -> Vec<u8> {
    let units = if random.one_in(8) { 0 } else { random.below(most) };
    let mut bytes: Vec<u8> = (0..units).flat_map(|_| unit(random).to_le_bytes()).collect();
    if random.one_in(2) {
        bytes.push(random.number() as u8);
    }
    bytes
}

/// A place in a slice of this length, often at its end, in an image as often as not at a sector's end; one in `outside`
/// times past it.
pub fn in_slice(random: &mut Random, source: u64, slice: usize, outside: usize) -> Place {
    let (offset, length) = match source != 0 && slice >= SECTOR && random.one_in(2) {
        true => at_a_sector_end(random, slice),
        false => inside(random, slice),
    };
    let [offset, length, slice] = [offset, length, slice].map(|number| number as u64);
    if !random.one_in(outside) {
        return [source, offset, length];
    }
    match random.below(6) {
        0 => [source, slice - length + 1, length],
        1 => [source, offset, slice - offset + 1],
        2 => [source, slice + 1, 0],
        3 => [source, u64::MAX, random.pick(&[1, 2, u64::MAX])],
        4 => [source, random.pick(&[1, 2]), u64::MAX],
        _ => [source, random.number(), random.number()],
    }
}

fn inside(random: &mut Random, slice: usize) -> (usize, usize) {
    let length = random.below(2 * LONGEST).min(slice);
    let offset = match random.below(8) {
        0 => slice - length,
        _ => random.below(slice - length + 1),
    };
    (offset, length)
}

/// Offset and length of a place that ends just before the last two bytes of a sector, with one of them or with both, lies
/// over them, also on into the next sector or entry, or begins at or just behind them.
fn at_a_sector_end(random: &mut Random, slice: usize) -> (usize, usize) {
    let next = SECTOR * random.between(1, slice / SECTOR);
    let length = random.below(2 * LONGEST);
    let offset = (next + 1 - random.below(length + 4)).min(slice);
    (offset, length.min(slice - offset))
}

/// The entries carved from an image, by ours and, from its restored copy, by the Rust.
pub fn carve(image: &[u8]) -> Carved {
    let mut entries = vec![0; ENTRY_WORDS * (image.len() / ENTRY)];
    let mut out = [0; MFT_CARVING_FIELDS.len()];
    let number = mft_carve_entries(image, &mut entries, &mut out);
    assert_eq!(number, ACCEPTED, "an image is carved with room for every entry");
    entries.truncate(ENTRY_WORDS * out[2] as usize);
    let (rust, _) = carve_mft_entries(&restored(image).bytes);
    Carved { entries, rust }
}
