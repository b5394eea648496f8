//! The random programs: up to 64 calls on one table, refused ones among them, and then every key looked up.

use super::cases::World;
use super::edges::{ladder, listed, some_rooms, step};
use super::library::{Key, Sources, CHAIN_WORDS, SLOT_WORDS};
use super::lists::Room;
use super::model::{key, parent, restored, End};
use super::pair::{Added, Given, Pair, Question, STORED, TOLD};
use super::places;
use crate::difference::Finding;
use crate::lent::untouched;
use crate::names::comparison::{self as decoding, OUT};
use crate::random::Random;
use std::fmt;

/// The most calls of a program.
const CALLS: usize = 64;

/// One in so many name places handed in lies outside its slice.
const OUTSIDE: usize = 32;

/// As for one in so many that it does not happen.
pub const NEVER: usize = 1 << 40;

/// The words lent for the answer of an addition: mostly as many as it has.
const OUTS: [usize; 16] = [
    1,
    1,
    1,
    1,
    1,
    1,
    1,
    1,
    1,
    1,
    1,
    1,
    1,
    STORED + 1,
    STORED + 3,
    STORED - 1,
];

/// The names of a ladder: about as many as are followed.
const LADDER: [usize; 2] = [250, 262];

/// How many calls the programs made: additions accepted and refused, and paths by their end or refused; and how many names
/// of paths and stored places were decoded as others than the bytes that are stored.
#[derive(Default)]
pub struct Made {
    pub restored_names: u64,
    pub restored_places: u64,
    stored: u64,
    stored_refused: u64,
    root: u64,
    unknown: u64,
    unresolved: u64,
    paths_refused: u64,
}

impl fmt::Display for Made {
    fn fmt(&self, f: &mut fmt::Formatter<'_>) -> fmt::Result {
        write!(
            f,
            "{} additions and {} refused, paths: {} to the root, {} unknown, {} unresolved, {} refused, changed by \
             restoring: {} names of paths, {} stored places",
            self.stored,
            self.stored_refused,
            self.root,
            self.unknown,
            self.unresolved,
            self.paths_refused,
            self.restored_names,
            self.restored_places
        )
    }
}

/// A program while it runs.
struct Program<'a> {
    random: &'a mut Random,
    world: &'a World,
    /// A slice above the domain.
    above: &'a [u8],
    pair: Pair<'a>,
    made: &'a mut Made,
}

/// Runs a program on what was made for it.
pub fn run(random: &mut Random, world: &World, above: &[u8], made: &mut Made) -> Result<(), Finding> {
    let pair = table(random, world);
    let mut program = Program {
        random,
        world,
        above,
        pair,
        made,
    };
    if program.random.one_in(200) {
        program.ladder()?;
    }
    for call in 0..program.random.between(1, CALLS) {
        program.call().map_err(|finding| Finding {
            call: format!("call {call}: {}", finding.call),
            ..finding
        })?;
    }
    program.pair.compare_keys()
}

/// A table that is empty, or has slots of any keys, equal ones too; some of its words may be no whole slot.
fn table<'a>(random: &mut Random, world: &'a World) -> Pair<'a> {
    let slots = match random.below(8) {
        0 => random.below(4),
        1 | 2 => CALLS,
        _ => (world.keys.len() + random.below(6)).saturating_sub(2),
    };
    let words = SLOT_WORDS * slots + random.pick(&[0, 0, 1, 6]);
    if !random.one_in(4) {
        return Pair::empty(world.names(), words);
    }
    let outside = random.pick(&[8, 1000]);
    let mut held: Vec<u64> = (0..slots).flat_map(|_| world.slot(random, outside)).collect();
    held.extend((held.len()..words).map(untouched));
    Pair::new(world.names(), held, random.below(slots + 1))
}

impl<'a> Program<'a> {
    fn call(&mut self) -> Result<(), Finding> {
        match self.random.below(16) {
            choice @ 0..=7 => {
                let slot = self.world.slot(self.random, OUTSIDE);
                let replace = choice < 5;
                self.store(Added::One { slot, replace })
            }
            8 => {
                let carved = &self.world.carved;
                self.store(Added::Listed {
                    entries: &carved.entries,
                    rust: Some(&carved.rust),
                })
            }
            9 | 10 => {
                let entries = self.world.list(self.random);
                self.store(Added::list(&entries))
            }
            11 if self.random.one_in(8) => {
                let used = self.random.below(self.pair.used + 1);
                self.pair.reuse(used);
                Ok(())
            }
            11..=14 => self.path(),
            _ => self.decode(),
        }
    }

    fn store(&mut self, added: Added) -> Result<(), Finding> {
        let given = self.given();
        let out = self.random.pick(&OUTS);
        match self.pair.store(given, added, out)? {
            true => self.made.stored += 1,
            false => self.made.stored_refused += 1,
        }
        Ok(())
    }

    /// The path of a key with a text that is a byte short, then with one that is just long enough, and with any room.
    fn path(&mut self) -> Result<(), Finding> {
        let (key, given) = (self.key(), self.given());
        let question = self.pair.ask(given, key)?;
        let full = full(&question);
        let short = Room {
            text: full.text.saturating_sub(1),
            ..full
        };
        self.pair.resolve(&question, short)?;
        self.pair.resolve(&question, full)?;
        let any = self.any_room(full, TOLD);
        self.pair.resolve(&question, any)?;
        let any = self.any_room(full, CHAIN_WORDS);
        self.pair.chain(&question, any)?;
        let made = &mut *self.made;
        if let Ok(told) = &question.told {
            let changed = told.chain.places.iter().filter(|&&place| restored(given.names, place));
            made.restored_names += changed.count() as u64;
        }
        *match question.told.map(|told| told.chain.end) {
            Ok(End::Root) => &mut made.root,
            Ok(End::Unknown(_)) => &mut made.unknown,
            Ok(End::Unresolved(_)) => &mut made.unresolved,
            Err(_) => &mut made.paths_refused,
        } += 1;
        Ok(())
    }

    /// A chain just full, a word or more short, or longer; a text that is longer; and an answer of any words.
    fn any_room(&mut self, full: Room, out: usize) -> Room {
        let random = &mut *self.random;
        let chain = match random.below(4) {
            0 => full.chain,
            1 => full.chain.saturating_sub(random.between(1, 3)),
            2 => full.chain + random.between(1, 7),
            _ => random.below(full.chain + 1),
        };
        Room {
            chain,
            text: full.text + random.below(9),
            out: random.pick(&[out, out, out, out + 1, out + 3, out - 1, 0]),
        }
    }

    fn decode(&mut self) -> Result<(), Finding> {
        let place = self.world.place(self.random, 8);
        let names = self.given().names;
        let length = places::length(names, place);
        self.made.restored_places += u64::from(restored(names, place));
        let room = |text, out| decoding::Room { text, out };
        let any = room(length + self.random.below(5), self.random.pick(&[OUT, OUT, OUT + 2, 0]));
        places::compare(
            names,
            place,
            &[room(length.saturating_sub(1), OUT), room(length, OUT), any],
        )
    }

    /// The key of a slot, its parent's, or any.
    fn key(&mut self) -> Key {
        let used = self.pair.used;
        if used == 0 || self.random.one_in(3) {
            return self.world.key(self.random);
        }
        let slot = self.pair.model.slot(self.random.below(used));
        match self.random.below(8) {
            0 => parent(&slot),
            _ => key(&slot),
        }
    }

    /// The bytes of the names and the used slots, seldom others than the table's: a slice cut or above the domain,
    /// or more used than there are slots.
    fn given(&mut self) -> Given<'a> {
        let mut given = self.pair.given();
        let Sources { journal, image } = &mut given.names;
        match self.random.below(64) {
            0 => *journal = self.above,
            1 => *image = self.above,
            2 => *journal = &journal[..self.random.below(journal.len() + 1)],
            3 => *image = &image[..self.random.below(image.len() + 1)],
            _ => {}
        }
        let slots = self.pair.model.slots();
        given.used = match self.random.below(40) {
            0 => slots + 1,
            1 => self.random.pick(&[slots + 2, slots * SLOT_WORDS + 1, usize::MAX]),
            _ => given.used,
        };
        given
    }

    /// A table with a chain of about as many names as are followed, seeded in any order, and the paths around its end.
    fn ladder(&mut self) -> Result<(), Finding> {
        let (random, world) = (&mut *self.random, self.world);
        let names = random.between(LADDER[0], LADDER[1]);
        let mut slots = ladder(world.key(random), names);
        for at in 0..names {
            slots[at][4..].copy_from_slice(&world.image_place(random, NEVER));
            slots.swap(at, random.below(at + 1));
        }
        self.pair = Pair::empty(world.names(), SLOT_WORDS * (names + random.below(3)));
        self.pair
            .store(self.pair.given(), Added::list(&listed(&slots)), STORED)?;
        for at in [names - 1, random.between(LADDER[0] - 1, names - 1)] {
            some_rooms(&self.pair, &self.pair.ask(self.pair.given(), step(at))?)?;
        }
        Ok(())
    }
}

/// Just enough for a path; some where it is refused.
pub fn full(question: &Question) -> Room {
    let (chain, text) = match &question.told {
        Ok(told) => (told.chain.words().len(), told.text.len()),
        Err(_) => (6, 20),
    };
    Room { chain, text, out: TOLD }
}
