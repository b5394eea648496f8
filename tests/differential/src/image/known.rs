//! The images that the scope knows by name, with what it says of each.

use super::arrays::with_array;
use super::layout::{sound, Entry, Name, ARRAY, ENTRY, FIRST};

/// An image of one entry at most, and the units of the name that is carved from it; none where nothing is.
pub struct Known {
    pub name: &'static str,
    pub bytes: Vec<u8>,
    pub carved: Option<u64>,
    pub rejected: u64,
}

/// P7, also with arrays that pass the first attribute and that do not, P8, the image of 1023 bytes, and the name in the
/// 21st attribute.
pub fn cases() -> Vec<Known> {
    let known = |name, bytes, carved: Option<u64>| Known {
        name,
        bytes,
        carved,
        rejected: u64::from(carved.is_none()),
    };
    let first = |first: usize, array: usize| {
        let mut entry = Entry::new(first, 0);
        entry.name(&Name::of(1, 1));
        with_array(entry.end(), array)
    };
    // Names of one and of two units, so that the units tell which is kept.
    let kept = |namespaces: [u8; 2]| {
        let mut entry = Entry::new(FIRST, 0);
        for (units, namespace) in (1..).zip(namespaces) {
            entry.name(&Name::of(units, namespace));
        }
        entry.ended()
    };
    let attributes = |before: usize| {
        let mut entry = Entry::new(FIRST, 0);
        for _ in 0..before {
            entry.attribute(0x80, 8);
        }
        entry.name(&Name::of(1, 1));
        entry.ended()
    };
    vec![
        Known {
            name: "1023 bytes",
            bytes: sound()[..ENTRY - 1].to_vec(),
            carved: None,
            rejected: 0,
        },
        known("P7, first attribute at 47", first(47, ARRAY), None),
        known("P7, first attribute at 47, behind an array", first(47, 40), None),
        known("first attribute at 53, which the array passes", first(53, ARRAY), None),
        known("first attribute at 54, behind the array", first(54, ARRAY), Some(1)),
        known("P7, first attribute at 1016", first(1016, ARRAY), None),
        known("P8, namespaces 2, 3", kept([2, 3]), Some(2)),
        known("P8, namespaces 1, 3", kept([1, 3]), Some(1)),
        known("P8, namespaces 0, 2", kept([0, 2]), Some(1)),
        known("P8, namespaces 0, 0", kept([0, 0]), Some(2)),
        known("the name in the 20th attribute", attributes(19), Some(1)),
        known("the name in the 21st attribute", attributes(20), None),
    ]
}
