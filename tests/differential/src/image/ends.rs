//! How random entries get their update sequence arrays: most sound, with a check value that is not the true ends, and a
//! share with each damage; and names that lie at a sector's end.

use super::layout::{
    Entry, Name, ARRAY, ARRAY_BYTES, ARRAY_COUNT, ARRAY_OFFSET, ENTRY, FIRST_ATTRIBUTE, NAME, RESIDENT, SECTOR_ENDS,
};
use crate::random::Random;
use crate::records::layout::{number, put};

/// One in so many arrays is damaged.
const DAMAGED: usize = 6;

/// The last offset at which an array may begin.
const LAST: usize = SECTOR_ENDS[0] - ARRAY_BYTES;

/// Appends a name of which a byte, mostly of its text, lies at a sector's end, or that ends just before one, as far as there
/// is room. Another attribute fills what is before it.
pub fn name_at_a_sector_end(random: &mut Random, entry: &mut Entry, name: &Name) {
    let length = name.attribute_length();
    let back = match random.below(4) {
        0 => random.below(length + 1),
        _ => random.between(RESIDENT + NAME, length),
    };
    let end = random.pick(&[SECTOR_ENDS[0], SECTOR_ENDS[0], SECTOR_ENDS[1]]) + random.below(2);
    let at = end.saturating_sub(back).min(ENTRY.saturating_sub(length));
    if at >= entry.next + RESIDENT {
        entry.attribute(0x10, at - entry.next);
    }
    entry.fitting_name(name);
}

/// The entry as it is stored, mostly with a sound array.
pub fn stored(random: &mut Random, mut entry: Entry) -> Vec<u8> {
    let room = first_attribute(&entry.bytes).saturating_sub(ARRAY_BYTES).min(LAST);
    if room > ARRAY && random.one_in(4) {
        entry.array_at(random.between(ARRAY, room) / 2 * 2);
    }
    entry.check = check(random, &entry);
    let mut bytes = entry.stored();
    if random.one_in(DAMAGED) {
        damage(random, &mut bytes);
    }
    bytes
}

fn first_attribute(entry: &[u8]) -> usize {
    number(entry, FIRST_ATTRIBUTE, 2) as usize
}

/// A check value: any, one that could be mistaken for something else, or the true end of a sector. Short entries end with
/// zeros in both sectors, so that the last makes some whose stored ends are the true ones.
fn check(random: &mut Random, entry: &Entry) -> u16 {
    match random.below(8) {
        0 => number(&entry.bytes, random.pick(&SECTOR_ENDS), 2) as u16,
        1 => random.pick(&[0, 1, 0x30, 0x3000, 0xff, 0xffff]),
        _ => random.number() as u16,
    }
}

/// Has the array fail a test, or nearly.
fn damage(random: &mut Random, entry: &mut [u8]) {
    let offset = number(entry, ARRAY_OFFSET, 2) as usize;
    match random.below(10) {
        0 => put(entry, ARRAY_COUNT, 2, random.pick(&[0, 1, 2, 4, 5, 6, 259, 65535])),
        1 => put(entry, ARRAY_OFFSET, 2, (offset ^ 1) as u64),
        2 => put(entry, ARRAY_OFFSET, 2, random.pick(&[0, 4, 40, 46, 47])),
        3 => put(entry, ARRAY_OFFSET, 2, random.between(ARRAY, 520) as u64),
        4 => entry[SECTOR_ENDS[0] + random.below(2)] ^= 1 << random.below(8),
        5 => entry[SECTOR_ENDS[1] + random.below(2)] ^= 1 << random.below(8),
        6 => {
            let other = random.number() % 65536;
            SECTOR_ENDS.into_iter().for_each(|at| put(entry, at, 2, other));
        }
        7 => {
            let end = offset.min(LAST) + ARRAY_BYTES;
            put(entry, FIRST_ATTRIBUTE, 2, (end - random.below(3)) as u64);
        }
        8 => entry[offset.min(LAST) + random.below(ARRAY_BYTES)] ^= 1 << random.below(8),
        _ => at_the_first_end(random, entry),
    }
}

/// The array just before the end of the first sector, or over it, behind any first attribute.
fn at_the_first_end(random: &mut Random, entry: &mut [u8]) {
    let offset = random.between(LAST - 2, LAST + 4);
    let check = number(entry, SECTOR_ENDS[0], 2);
    put(entry, ARRAY_OFFSET, 2, offset as u64);
    put(entry, offset, 2, check);
    SECTOR_ENDS.into_iter().for_each(|at| put(entry, at, 2, check));
    if random.one_in(2) {
        put(entry, FIRST_ATTRIBUTE, 2, random.between(508, 520) as u64);
    }
}
