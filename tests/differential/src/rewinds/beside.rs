//! The calls of a random rewind: with text and without, with any room; and calls beside it, on copies, of which most are
//! refused.

use super::calls::{next, start, Both, Told};
use super::library::{State, RUN_WORDS, START_WORDS};
use super::model::Listed;
use super::runs::{run, Asked};
use super::whole::{Before, Caller, Rewound, REFUSALS};
use crate::difference::Finding;
use crate::lent::untouched;
use crate::paths::index::sizes;
use crate::paths::library::{Sources, SLOT_WORDS};
use crate::paths::lists::Room;
use crate::random::Random;

/// The calls beside a rewind, each on copies with one to three things changed.
pub struct Beside<'a> {
    pub random: &'a mut Random,
    /// A slice above the domain.
    pub above: &'a [u8],
    /// How many of these calls were accepted, and how many refused by each number.
    pub accepted: u64,
    pub refused: [u64; REFUSALS],
}

/// What is handed to a call: the bytes, the list, a table, the used slots, and the words of answer lent.
struct Handed<'a> {
    names: Sources<'a>,
    list: Vec<usize>,
    table: Vec<u64>,
    used: usize,
    out: usize,
}

impl<'a> Beside<'a> {
    /// Changes something at which a call is refused or not.
    fn change(&mut self, handed: &mut Handed<'a>, words: usize) {
        let random = &mut *self.random;
        let slots = handed.table.len() / SLOT_WORDS;
        match random.below(12) {
            0 => handed.out = random.below(words),
            1 => handed.out = words + random.between(1, 3),
            2 if random.one_in(2) => handed.names.journal = self.above,
            2 => handed.names.image = self.above,
            3 => handed.used = random.pick(&[slots + 1, slots * SLOT_WORDS + 1, usize::MAX]),
            4 | 5 if handed.list.len() >= 2 => {
                let at = 2 * random.below(handed.list.len() / 2);
                let end = handed.names.journal.len();
                let near = (end + 4).saturating_sub(random.below(90));
                let any = random.below(end + 1);
                handed.list[at] = random.pick(&[near, any, any / 8 * 8, end, usize::MAX - 7, usize::MAX]);
            }
            6 if slots > 0 => {
                let at = SLOT_WORDS * random.below(slots);
                let source = handed.table[at + 4];
                let slice = if source == 0 {
                    handed.names.journal
                } else {
                    handed.names.image
                };
                let past = slice.len() as u64 + 1;
                handed.table[at + 5] = random.pick(&[past, past, u64::MAX]);
            }
            7 => {
                let image = handed.names.image;
                handed.names.image = &image[..random.below(image.len() + 1)];
            }
            8 => {
                let journal = handed.names.journal;
                handed.names.journal = &journal[..journal.len() - random.below(journal.len().min(100) + 1)];
            }
            9 => handed.used = random.below(handed.used.min(slots) + 1),
            10 => {
                let words = SLOT_WORDS * random.between(handed.used.min(slots), slots);
                handed.table.truncate(words + random.below(SLOT_WORDS));
            }
            _ => handed.list.push(random.number() as usize),
        }
    }

    /// Starts with something changed, and with one slot too few in either table, which are to be refused.
    pub fn starts(&mut self, listed: &Listed<'a>, before: &Before, needed: usize) -> Result<(), Finding> {
        for [first, forward] in [[0, 1], [1, 0]] {
            let sizes = [needed.saturating_sub(first), needed.saturating_sub(forward)];
            self.start(
                listed,
                &before.words,
                before.used,
                sizes.map(|slots| SLOT_WORDS * slots),
                START_WORDS,
            )?;
        }
        for _ in 0..self.random.below(3) {
            let mut table = before.words.clone();
            let more = SLOT_WORDS * (needed + 1 - before.used);
            table.extend((0..more).map(|at| untouched(before.words.len() + at)));
            let mut handed = Handed {
                names: listed.names,
                list: listed.words.to_vec(),
                table,
                used: before.used,
                out: START_WORDS,
            };
            for _ in 0..self.random.between(1, 3) {
                self.change(&mut handed, START_WORDS);
            }
            let listed = Listed::of(handed.names, &handed.list);
            let sizes = [handed.table.len(), SLOT_WORDS * (needed + self.random.below(2))];
            self.start(&listed, &handed.table, handed.used, sizes, handed.out)?;
        }
        Ok(())
    }

    /// A start on tables of so many words; the first has these in front.
    fn start(
        &mut self,
        listed: &Listed,
        front: &[u64],
        used: usize,
        [first, forward]: [usize; 2],
        out: usize,
    ) -> Result<(), Finding> {
        let mut first = Both::holding(front, first);
        let mut forward = Both::unused(forward);
        let answer = start(listed, &mut first, used, &mut forward, out)?;
        self.tally(answer.err());
        Ok(())
    }

    fn tally(&mut self, refusal: Option<u32>) {
        match refusal {
            None => self.accepted += 1,
            Some(number) => self.refused[number as usize] += 1,
        }
    }
}

impl<'a> Caller<'a> for Beside<'a> {
    /// Now and then a step with something changed, and one at another position.
    fn between(&mut self, rewound: &Rewound<'a, '_>) -> Result<(), Finding> {
        if !self.random.one_in(3) {
            return Ok(());
        }
        let Rewound { listed, forward, state } = rewound;
        let told = self.random.pick(&[Told::Path, Told::Chain]);
        let mut handed = Handed {
            names: listed.names,
            list: listed.words.to_vec(),
            table: forward.lent().to_vec(),
            used: state.used,
            out: told.words(),
        };
        let records = listed.words.len() / 2;
        let position = match self.random.below(4) {
            0 => self.random.pick(&[records, records + 1, usize::MAX]),
            1 => self.random.below(records + 1),
            _ => state.position,
        };
        for _ in 0..self.random.between(1, 3) {
            self.change(&mut handed, told.words());
        }
        let room = Room {
            chain: self.random.below(16),
            text: self.random.pick(&[0, 10, 1000]),
            out: handed.out,
        };
        let used = handed.used;
        let mut forward = Both::new(handed.table);
        let listed = Listed::of(handed.names, &handed.list);
        let state = State { used, position };
        let asked = Asked {
            steps: self.random.below(4),
            text: room.text,
            out: self.random.between(RUN_WORDS - 1, RUN_WORDS + 1),
            index: sizes(forward.model.slots(), self.random.below(6)),
        };
        let _ = run(&listed, &mut forward.clone(), state, asked)?;
        let answer = next(&listed, &mut forward, state, told, room)?;
        self.tally(answer.err());
        Ok(())
    }

    fn told(&mut self) -> (Told, bool) {
        let told = self.random.pick(&[Told::Path, Told::Path, Told::Chain]);
        (told, self.random.one_in(3))
    }

    /// A chain that is just full, short or longer, a text that is just long enough or longer, and an answer likewise.
    fn room(&mut self, full: Room) -> Room {
        let random = &mut *self.random;
        let chain = match random.below(4) {
            0 => full.chain.saturating_sub(random.between(1, 3)),
            1 => full.chain + random.between(1, 7),
            2 => random.below(full.chain + 1),
            _ => full.chain,
        };
        Room {
            chain,
            text: full.text + random.pick(&[0, 0, 1, 9]),
            out: full.out + random.pick(&[0, 0, 1, 3]),
        }
    }
}
