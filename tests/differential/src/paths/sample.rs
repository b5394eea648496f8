//! What is recorded of tables and paths, with the Rust's answers: a line for each addition, the keys of the Rust's table,
//! and for each path and name, its text in hexadecimal.

use super::cases::World;
use super::edges::{ladder, step, under, Letters};
use super::library::{Key, Place, Sources};
use super::model::{bytes_at, carved, name, place, Slot};
use super::pair::{add, rust_key};
use super::programs::NEVER;
use crate::image::layout::ENTRY;
use crate::image::walk;
use crate::random::Random;
use crate::recording::{Kind, Recording};
use crate::rewind::RewindEngine;

/// The sample's own seed and its stream of random numbers.
const SEED: u64 = 20_261_117;
const PROGRAMS: u64 = 1;

/// How many random programs are recorded, every other one with an entry in its image, and how many calls each has.
const RECORDED: usize = 24;
const CALLS: usize = 24;

/// The longest image of a random program.
const LONGEST_IMAGE: usize = 2 * ENTRY;

/// The most slots that a program uses.
const SLOTS: usize = 300;

/// A program while it is recorded, with the Rust's table.
struct Program<'a> {
    recording: &'a mut Recording,
    names: Sources<'a>,
    rust: RewindEngine,
}

/// Adds the programs to a recording.
pub fn record(recording: &mut Recording) {
    known(recording);
    random(recording);
}

/// P9: a ladder of 259 names and the paths of its keys around as many as are followed; and a key that is its own
/// parent, beside the root and an unknown key.
fn known(recording: &mut Recording) {
    let letters = Letters::new();
    let mut program = Program::new(recording, letters.names());
    for slot in ladder([5, 5], 259) {
        program.one(&slot, true);
    }
    for names in [1, 254, 255, 256, 257, 258, 259] {
        program.path(step(names - 1));
    }
    let mut program = Program::new(recording, letters.names());
    program.one(&under([9, 1], [9, 1], [0, 0, 2]), true);
    for key in [[9, 1], [9, 2], [5, 5], [5, 0]] {
        program.path(key);
    }
}

/// Random programs whose keys the Rust has, with short images.
fn random(recording: &mut Recording) {
    let mut programs = 0;
    for number in 0.. {
        let mut random = Random::of_case(SEED, PROGRAMS, number);
        let world = World::new(&mut random);
        let least = ENTRY * (programs % 2);
        let short = (least..=LONGEST_IMAGE).contains(&world.image.len());
        if short && world.keys.iter().all(|&key| rust_key(key).is_some()) {
            let mut program = Program::new(recording, world.names());
            for _ in 0..CALLS {
                program.call(&world, &mut random);
            }
            programs += 1;
        }
        if programs == RECORDED {
            return;
        }
    }
}

impl<'a> Program<'a> {
    /// Begins a program with the bytes of its names.
    fn new(recording: &'a mut Recording, names: Sources<'a>) -> Self {
        recording.input(Kind::Journal, names.journal);
        recording.input(Kind::Image, names.image);
        Self {
            recording,
            names,
            rust: RewindEngine::new(),
        }
    }

    fn call(&mut self, world: &World, random: &mut Random) {
        match random.below(8) {
            0..=2 => self.one(&world.slot(random, NEVER), true),
            3 => self.one(&world.slot(random, NEVER), false),
            4 if random.one_in(2) => self.list(walk::carve(&world.image).0.as_flattened()),
            4 => self.list(&world.list(random)),
            5 | 6 => self.path(world.key(random)),
            _ => self.name(world.place(random, NEVER)),
        }
    }

    /// Adds a slot, in place of a known one or not.
    fn one(&mut self, slot: &Slot, replace: bool) {
        let kind = if replace { Kind::Insert } else { Kind::InsertIfAbsent };
        self.recording.words(kind, slot);
        self.add(slot, replace);
        self.used();
    }

    /// Adds the entries of a carved list, whose names all lie inside.
    fn list(&mut self, entries: &[u64]) {
        let slots = carved(entries);
        if slots.iter().all(|slot| bytes_at(self.names, place(slot)).is_some()) {
            self.recording.words(Kind::Seed, entries);
            slots.iter().for_each(|slot| self.add(slot, false));
            self.used();
        }
    }

    fn add(&mut self, slot: &Slot, replace: bool) {
        let added = add(&mut self.rust, self.names, slot, replace);
        assert!(added, "the Rust has the keys that are recorded");
    }

    fn used(&mut self) {
        let used = self.rust.lookup_len();
        assert!(used <= SLOTS, "a recorded table has {SLOTS} slots");
        self.recording.line(&format!("used {used}"));
    }

    fn path(&mut self, key: Key) {
        self.recording.words(Kind::Path, &key);
        let key = rust_key(key).expect("a sequence of 16 bits");
        self.recording.text(&self.rust.resolve_path(&key));
    }

    fn name(&mut self, place: Place) {
        self.recording.words(Kind::StoredName, &place);
        self.recording.text(&name(self.names, place));
    }
}
