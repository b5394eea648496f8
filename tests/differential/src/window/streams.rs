//! The random journals of the window, with records around the places where it is refilled, and who delivers them.

use super::calls::{Lent, Pair, BEHIND, FULL};
use super::reading::Caller;
use crate::difference::Finding;
use crate::journals::cases;
use crate::library::{BUF_SIZE, READER_WORDS, STREAM_DOMAIN};
use crate::random::Random;

/// The longest journal, short of what the last piece adds to it.
const LONGEST: usize = 300 * 1024;

/// Fills `bytes` with a journal; gives its kind.
pub fn fill(random: &mut Random, bytes: &mut Vec<u8>) -> &'static str {
    match random.below(8) {
        0 => return cases::fill(random, bytes),
        1 => {
            bytes.clear();
            let length = random.below(2 * BUF_SIZE);
            random.append(bytes, length);
            return "rubbish";
        }
        _ => bytes.clear(),
    }
    let size = random.between(BUF_SIZE / 2, LONGEST);
    let (mut last, mut edge) = (0, BUF_SIZE);
    while bytes.len() < size {
        last = edge;
        filler(random, bytes, edge);
        edge = across(random, bytes, edge);
    }
    match random.below(4) {
        0 => bytes.truncate(bytes.len() - random.below(200)),
        1 => bytes.truncate(last - 8 + random.below(24)),
        _ => {}
    }
    "stream"
}

/// Appends zero words or records up to a few words before an edge of the window.
fn filler(random: &mut Random, bytes: &mut Vec<u8>, edge: usize) {
    bytes.resize(bytes.len().next_multiple_of(8), 0);
    let end = edge.saturating_sub(8 * random.below(24)).max(bytes.len());
    if random.one_in(3) {
        bytes.resize(end, 0);
        return;
    }
    while bytes.len() + 200 < end {
        match random.below(100) {
            0 => bytes.resize(end.min(bytes.len() + 8 * random.below(2000)), 0),
            1 => cases::piece(random, bytes),
            _ => cases::sound(random, bytes),
        }
    }
    bytes.resize(end.max(bytes.len()).next_multiple_of(8), 0);
}

/// Appends pieces across an edge of the window; gives the next edge, which is that of a window that begins with the
/// piece that passes this one.
fn across(random: &mut Random, bytes: &mut Vec<u8>, edge: usize) -> usize {
    loop {
        let start = bytes.len();
        match random.below(8) {
            0 => cases::large(random, bytes),
            1..=4 => cases::sound(random, bytes),
            _ => cases::piece(random, bytes),
        }
        bytes.resize(bytes.len().next_multiple_of(8), 0);
        if bytes.len() > edge {
            return start + BUF_SIZE;
        }
        if bytes.len() == edge {
            return edge + BUF_SIZE;
        }
    }
}

/// How the bytes are delivered.
#[derive(Clone, Copy)]
enum Delivery {
    Whole,
    One,
    Small,
    Page,
    Any,
    Mixed,
}

const DELIVERIES: [Delivery; 6] = [
    Delivery::Whole,
    Delivery::One,
    Delivery::Small,
    Delivery::Page,
    Delivery::Any,
    Delivery::Mixed,
];

/// Delivers in sizes of its own, and makes calls that are refused or change nothing in between. It may end the reading.
pub struct Restless<'a> {
    random: &'a mut Random,
    delivery: Delivery,
    /// How many givings there are before an empty one.
    ends_after: Option<usize>,
}

impl<'a> Restless<'a> {
    pub fn new(random: &'a mut Random) -> Self {
        let delivery = random.pick(&DELIVERIES);
        let ends_after = random.one_in(16).then(|| random.below(20));
        Self {
            random,
            delivery,
            ends_after,
        }
    }
}

impl Caller for Restless<'_> {
    fn size(&mut self, wanted: usize) -> usize {
        if self.ends_after == Some(0) {
            return 0;
        }
        self.ends_after = self.ends_after.map(|givings| givings - 1);
        let delivery = match self.delivery {
            Delivery::Mixed => self.random.pick(&DELIVERIES[..5]),
            other => other,
        };
        let size = match delivery {
            Delivery::One => 1,
            Delivery::Small => self.random.between(1, 16),
            Delivery::Page => 4096,
            Delivery::Any => self.random.between(1, wanted),
            Delivery::Whole | Delivery::Mixed => wanted,
        };
        size.min(wanted)
    }

    fn between(&mut self, pair: &mut Pair) -> Result<(), Finding> {
        if !self.random.one_in(500) {
            return Ok(());
        }
        let numbers = pair.numbers();
        self.other_call(pair)?;
        match pair.numbers() == numbers {
            true => Ok(()),
            false => Err(Finding {
                call: "one that is refused or asks for nothing".to_string(),
                what: format!("the window is {:?}, not {numbers:?}", pair.numbers()),
                rust: "no such call".to_string(),
                ours: "as the scope's window".to_string(),
            }),
        }
    }
}

impl Restless<'_> {
    /// A call that is refused, or that changes nothing: too many bytes, no bytes where none are wanted, what is wanted
    /// asked again, other lengths than are asked for, and numbers that are no window's.
    fn other_call(&mut self, pair: &mut Pair) -> Result<(), Finding> {
        let wanted = pair.wanted();
        let lent = match self.random.below(5) {
            0 => return pair.give(&vec![0x5a; wanted + 1], FULL).map(drop),
            1 if wanted == 0 => return pair.give(&[], FULL).map(drop),
            1 => return pair.next(FULL).map(drop),
            2 => Lent {
                buffer: self.random.pick(&[0, 1, BUF_SIZE - 1, BUF_SIZE + 1, BUF_SIZE + BEHIND]),
                ..FULL
            },
            3 => Lent {
                reader: self.random.below(READER_WORDS),
                ..FULL
            },
            _ => return self.other_numbers(pair),
        };
        pair.next(lent).map(drop)?;
        pair.give(&vec![0x5a; wanted], lent).map(drop)
    }

    /// A call with one of the window's numbers made wrong; the window gets its own back.
    fn other_numbers(&mut self, pair: &mut Pair) -> Result<(), Finding> {
        let numbers = pair.numbers();
        let mut wrong = numbers;
        match self.random.below(6) {
            0 => wrong[0] = numbers[0] + self.random.between(1, 7) as u64,
            1 => wrong[1] = numbers[1] + self.random.between(1, 7) as u64,
            2 => wrong[1] = numbers[2].next_multiple_of(8) + 8,
            3 => wrong[2] = numbers[4] + self.random.between(1, 8) as u64,
            4 => wrong[3] = numbers[2] - numbers[0] + 1,
            _ => wrong[4] = STREAM_DOMAIN + 1,
        }
        pair.set(wrong);
        pair.next(FULL).map(drop)?;
        pair.give(&[], FULL).map(drop)?;
        let unchanged = pair.numbers() == wrong;
        pair.set(numbers);
        match unchanged {
            true => Ok(()),
            false => Err(Finding {
                call: "with numbers that are no window's".to_string(),
                what: format!("the window {wrong:?} is changed"),
                rust: "no such call".to_string(),
                ours: "as the scope's window".to_string(),
            }),
        }
    }
}
