//! Names as files have them, most of them ASCII, some with Latin letters and some of CJK ideographs.

use crate::random::Random;

/// The fewest and the most units of a name.
const UNITS: [usize; 2] = [4, 40];

/// Those of a long name.
const LONG_UNITS: [usize; 2] = [200, 255];

/// The most bytes of a name's text, and of a long name's: a unit gives three at most.
pub const LONGEST_TEXT: usize = 3 * UNITS[1];
pub const LONGEST_LONG_TEXT: usize = 3 * LONG_UNITS[1];

/// Names one after another in UTF-16, little endian, and where each of them ends.
pub struct Names {
    pub bytes: Vec<u8>,
    pub ends: Vec<usize>,
}

/// So many names, by their seed alone.
pub fn generated(seed: u64, count: usize) -> Names {
    let mut random = Random::of_case(seed, 1, 0);
    let mut names = Names {
        bytes: Vec::new(),
        ends: Vec::with_capacity(count),
    };
    for _ in 0..count {
        names
            .bytes
            .extend(name(&mut random).iter().flat_map(|unit| unit.to_le_bytes()));
        names.ends.push(names.bytes.len());
    }
    names
}

/// The units of a name, every number of them as frequent as any other.
pub fn name(random: &mut Random) -> Vec<u16> {
    let units = random.between(UNITS[0], UNITS[1]);
    name_of(random, units)
}

/// The units of a long name, likewise.
pub fn long_name(random: &mut Random) -> Vec<u16> {
    let units = random.between(LONG_UNITS[0], LONG_UNITS[1]);
    name_of(random, units)
}

/// The units of a name, where short ones are more frequent than long ones: the lower of two numbers.
pub fn short_name(random: &mut Random) -> Vec<u16> {
    let [one, other] = [0; 2].map(|_| random.between(UNITS[0], UNITS[1]));
    name_of(random, one.min(other))
}

/// So many units: of ten names one has every fourth letter from outside of ASCII, and one is of ideographs.
fn name_of(random: &mut Random, units: usize) -> Vec<u16> {
    let kind = random.below(10);
    let mut unit = |at: usize| match kind {
        0 if at.is_multiple_of(4) => random.between(0xc0, 0x17f) as u16,
        1 => random.between(0x4e00, 0x9fff) as u16,
        _ => random.between(0x61, 0x7a) as u16,
    };
    (0..units).map(&mut unit).collect()
}

impl Names {
    /// The names, each as its bytes.
    pub fn iter(&self) -> impl Iterator<Item = &[u8]> {
        let starts = std::iter::once(0).chain(self.ends.iter().copied());
        starts.zip(&self.ends).map(|(start, &end)| &self.bytes[start..end])
    }
}
