//! The names: units at which the decoder decides, in every order, and random ones with most of them.

use crate::random::Random;

/// The most units of a random name.
pub const LONGEST: usize = 8;

/// The units at which the length of the text changes and at which surrogates begin and end.
pub const BOUNDARIES: [u16; 18] = [
    0x0000, 0x0001, 0x007f, 0x0080, 0x07ff, 0x0800, 0x0fff, 0x1000, 0xd7ff, 0xd800, 0xdbff, 0xdc00, 0xdfff, 0xe000,
    0xfeff, 0xfffd, 0xfffe, 0xffff,
];

/// The names that the scope knows, with the text that it gives: P10.
pub const KNOWN: [(&[u16], &[u8]); 2] = [
    (&[0xd800], &[0xef, 0xbf, 0xbd]),
    (&[0xd83d, 0xde00], &[0xf0, 0x9f, 0x98, 0x80]),
];

/// The bytes of units, little endian.
pub fn bytes_of(units: &[u16]) -> Vec<u8> {
    units.iter().flat_map(|unit| unit.to_le_bytes()).collect()
}

/// Hands over every name of `length` boundary units.
pub fn of_boundaries<E>(length: u32, each: &mut impl FnMut(&[u16]) -> Result<(), E>) -> Result<(), E> {
    let mut units = Vec::new();
    for number in 0..BOUNDARIES.len().pow(length) {
        let mut rest = number;
        units.clear();
        for _ in 0..length {
            units.push(BOUNDARIES[rest % BOUNDARIES.len()]);
            rest /= BOUNDARIES.len();
        }
        each(&units)?;
    }
    Ok(())
}

/// Hands over every pair of a high and a low surrogate.
pub fn pairs<E>(each: &mut impl FnMut(&[u16]) -> Result<(), E>) -> Result<(), E> {
    for high in 0xd800..=0xdbff {
        for low in 0xdc00..=0xdfff {
            each(&[high, low])?;
        }
    }
    Ok(())
}

/// Fills `bytes` with a name of at most `longest` units, and now and then an odd last byte; gives its kind.
pub fn fill(random: &mut Random, longest: usize, bytes: &mut Vec<u8>) -> &'static str {
    bytes.clear();
    for _ in 0..random.below(longest + 1) {
        bytes.extend_from_slice(&unit(random).to_le_bytes());
    }
    if !random.one_in(4) {
        return "units";
    }
    bytes.push(random.number() as u8);
    "units and an odd byte"
}

/// A surrogate as often as not, else a unit at a boundary, of ASCII or any.
pub fn unit(random: &mut Random) -> u16 {
    let number = random.number();
    let any = (number >> 8) as u16;
    match number % 8 {
        0 | 1 => 0xd800 | any & 0x3ff,
        2 | 3 => 0xdc00 | any & 0x3ff,
        4 => BOUNDARIES[usize::from(any) % BOUNDARIES.len()],
        5 => any & 0x7f,
        6 => any & 0xfff,
        _ => any,
    }
}
