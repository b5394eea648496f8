//! The exhaustive places at the ends of sectors; they depend on no seed.

use super::cases::carve;
use super::edges::{some_rooms, table, under};
use super::library::{Key, Place, Sources, SLOT_WORDS};
use super::model::restored;
use super::pair::{Added, Pair, STORED};
use super::places;
use crate::difference::Finding;
use crate::image::arrays;
use crate::image::layout::{
    Entry, Name, ARRAY, ARRAY_BYTES, ARRAY_COUNT, ENTRY, FIRST_ATTRIBUTE, NAME, RESIDENT, SECTOR_ENDS, SEQUENCE,
};
use crate::names::comparison::{hex, Room, OUT};

const KEY: Key = [42, 3];

/// The longest place that is tried at every offset around an end.
const LONGEST: usize = 7;

/// An entry of letters, with one name, whose sectors truly end with others than is stored.
fn lettered() -> Entry {
    let mut entry = Entry::new(400, 0);
    let units = 0..(ENTRY - 400) / 2;
    let letters: Vec<u8> = units.flat_map(|at| (0x4e00 + at as u16).to_le_bytes()).collect();
    entry.lay(400, &letters);
    entry.fitting_name(&Name::of(3, 1));
    entry.end()
}

/// Entries that are restored when they are decoded, among them two that are not carved, and such as are not: without FILE,
/// with an array that fails a test, and one that does not lie in the image whole.
fn image() -> Vec<u8> {
    let with = |change: fn(&mut Entry)| {
        let mut entry = lettered();
        change(&mut entry);
        entry.stored()
    };
    let mut wrong_end = lettered().stored();
    wrong_end[SECTOR_ENDS[1]] ^= 1;
    [
        with(|_| {}),
        with(|entry| entry.put(SEQUENCE, 2, 0)),
        with(|entry| entry.put(FIRST_ATTRIBUTE, 2, 1016)),
        with(|entry| entry.put(FIRST_ATTRIBUTE, 2, 54)),
        with(|entry| entry.array_at(394)),
        with(|entry| entry.lay(0, b"BAAD")),
        with(|entry| entry.put(ARRAY_COUNT, 2, 4)),
        with(|entry| entry.array_at(396)),
        wrong_end,
        with(|_| {}),
        with(|_| {}),
        with(|_| {})[..600].to_vec(),
    ]
    .concat()
}

/// The places around each sector's end, odd ones and odd lengths too, those over the array, and long ones over one entry
/// and over two.
fn around(image: &[u8]) -> Vec<Place> {
    let mut places = Vec::new();
    for entry in (0..image.len()).step_by(ENTRY) {
        let ends = SECTOR_ENDS.map(|end| (end - LONGEST..=end + 3, LONGEST));
        for (offsets, longest) in ends.into_iter().chain([(ARRAY - 2..=ARRAY + ARRAY_BYTES, 3)]) {
            for offset in offsets {
                places.extend((0..=longest).map(|length| [1, entry + offset, length]));
            }
        }
        for length in [509, 511, 512, 513, 1021, 1022, 1023, 1024, 1025, 1536] {
            places.extend([0, 1, 2, 511].map(|offset| [1, entry + offset, length]));
        }
    }
    let inside = places
        .into_iter()
        .filter(|[_, offset, length]| offset + length <= image.len());
    inside.map(|place| place.map(|number| number as u64)).collect()
}

/// A place decoded, with a text a byte short, just full and longer.
fn decoded(names: Sources, place: Place) -> Result<(), Finding> {
    let length = places::length(names, place);
    let texts = [length.saturating_sub(1), length, length + 3];
    places::compare(names, place, &texts.map(|text| Room { text, out: OUT }))
}

/// A place decoded, and as the name of a path.
fn told(names: Sources, place: Place) -> Result<(), Finding> {
    decoded(names, place)?;
    let pair = table(names, &[under([5, 5], KEY, place)])?;
    some_rooms(&pair, &pair.ask(pair.given(), KEY)?)
}

/// Each place of an image of entries that are restored and such as are not, from every source that is the image.
pub fn places() -> Result<u64, Finding> {
    let image = image();
    let names = Sources {
        journal: &image,
        image: &image,
    };
    let mut cases = 0;
    for place in around(&image) {
        told(names, place)?;
        for source in [0, 2, u64::MAX] {
            decoded(names, [source, place[1], place[2]])?;
        }
        cases += 1;
    }
    Ok(cases)
}

/// Names of a few units that begin at every offset around the sectors' ends, carved by ours and by the Rust, seeded and
/// told.
pub fn carved() -> Result<u64, Finding> {
    let mut cases = 0;
    let mut changed = 0;
    for units in [1, 2, 5] {
        for end in SECTOR_ENDS {
            let last = (end + 2).min(ENTRY - 2 * units);
            for start in end - 2 * units - 1..=last {
                let mut entry = Entry::new(start - RESIDENT - NAME, 0);
                entry.fitting_name(&Name::of(units, 1));
                let image = entry.ended();
                let names = Sources {
                    journal: &[],
                    image: &image,
                };
                let list = carve(&image);
                let mut pair = Pair::empty(names, SLOT_WORDS);
                let added = Added::Listed {
                    entries: &list.entries,
                    rust: Some(&list.rust),
                };
                pair.store(pair.given(), added, STORED)?;
                some_rooms(&pair, &pair.ask(pair.given(), KEY)?)?;
                changed += u64::from(restored(names, [1, start as u64, 2 * units as u64]));
                cases += 1;
            }
        }
    }
    match changed {
        0 => Err(Finding {
            call: "paths of carved names".to_string(),
            what: "restoring changes none of them".to_string(),
            rust: "the same".to_string(),
            ours: "the same".to_string(),
        }),
        _ => Ok(cases),
    }
}

/// Two entries in an image that is cut at every byte: what of them is left is restored where its whole entry is there.
pub fn cut() -> Result<u64, Finding> {
    let image = lettered().stored().repeat(2);
    let mut cases = 0;
    for length in 0..=image.len() {
        let names = Sources {
            journal: &[],
            image: &image[..length],
        };
        for offset in [
            SECTOR_ENDS[0],
            SECTOR_ENDS[1],
            ENTRY + SECTOR_ENDS[0],
            ENTRY + SECTOR_ENDS[1],
        ] {
            for [offset, length] in [[offset, 2], [offset - 1, 2], [offset + 1, 1]] {
                decoded(names, [1, offset as u64, length as u64])?;
                cases += 1;
            }
        }
    }
    Ok(cases)
}

/// The places at and around both sectors' ends of each exhaustive entry whose array or sector ends decide.
pub fn arrays() -> Result<u64, Finding> {
    let mut images = Vec::new();
    arrays::entries(&mut |_, entry| images.push(entry));
    for image in &images {
        let names = Sources { journal: &[], image };
        for end in SECTOR_ENDS {
            for [offset, length] in [[end, 2], [end - 1, 2], [end + 1, 1]] {
                decoded(names, [1, offset as u64, length as u64]).map_err(|finding| Finding {
                    call: format!("{}, in the entry {}", finding.call, hex(image)),
                    ..finding
                })?;
            }
        }
    }
    Ok(images.len() as u64)
}
