//! MFT entries in an image.

use volume_history::{carve_mft_entries, CarvedMftEntry, MftCarvingStats};

use crate::layout::{mft_entry, name_attribute, other_attribute, reference, stored, true_entry, utf16, ARRAY, CHECK};

/// The entries of an image, of which so many candidates are rejected.
fn carved(image: &[u8], rejected: u64) -> Vec<CarvedMftEntry> {
    let (entries, stats) = carve_mft_entries(image);
    let expected = MftCarvingStats {
        bytes_scanned: image.len(),
        candidates_examined: entries.len() as u64 + rejected,
        entries_carved: entries.len(),
        rejected,
    };
    assert_eq!(stats, expected);
    entries
}

/// The name that is kept of an entry with these attributes, none where it is rejected.
fn kept(attributes: &[Vec<u8>]) -> Option<String> {
    let image = mft_entry(30, 1, 1, 56, attributes);
    let (entries, _) = carve_mft_entries(&image);
    entries.first().map(|entry| entry.filename.clone())
}

/// A name in the root folder.
fn name(text: &str, namespace: u8) -> Vec<u8> {
    name_attribute(text, namespace, reference(5, 5))
}

#[test]
fn p1_an_empty_image_has_all_counts_0() {
    assert_eq!(carved(&[], 0), []);
    assert_eq!(carve_mft_entries(&[]).1, MftCarvingStats::default());
}

#[test]
fn an_entry_has_its_fields() {
    let attributes = [
        other_attribute(),
        name_attribute("Küche \u{1F600}", 1, reference(0x8765_4321_0fed, 0xfffe)),
    ];
    let mut image = vec![0; 1024];
    image.extend(mft_entry(0x8000_0001, 0xffff, 3, 56, &attributes));
    let expected = CarvedMftEntry {
        offset: 1024,
        entry_number: 0x8000_0001,
        sequence_number: 0xffff,
        filename: "Küche \u{1F600}".to_owned(),
        parent_entry: 0x8765_4321_0fed,
        parent_sequence: 0xfffe,
        is_directory: true,
        is_in_use: true,
    };
    assert_eq!(carved(&image, 0), [expected]);
}

#[test]
fn flags() {
    for flags in 0..8 {
        let entry = &carved(&mft_entry(30, 1, flags, 56, &[name("a", 1)]), 0)[0];
        assert_eq!((entry.is_in_use, entry.is_directory), (flags & 1 == 1, flags & 2 == 2));
    }
}

#[test]
fn an_image_of_1023_bytes_has_no_entry() {
    let image = mft_entry(30, 1, 1, 56, &[name("a", 1)]);
    assert_eq!(carved(&image, 0).len(), 1);
    assert_eq!(carved(&image[..1023], 0), []);
}

#[test]
fn entries_stand_at_multiples_of_1024() {
    let entry = mft_entry(30, 1, 1, 56, &[name("a", 1)]);
    let image = [entry.clone(), vec![0; 512], entry.clone(), vec![0; 512], entry].concat();
    let offsets: Vec<_> = carved(&image, 0).iter().map(|entry| entry.offset).collect();
    assert_eq!(offsets, [0, 3072]);
}

#[test]
fn sequence_0_is_rejected() {
    assert_eq!(carved(&mft_entry(30, 0, 1, 56, &[name("a", 1)]), 1), []);
}

/// At 48 no array finds room before it.
#[test]
fn p7_the_first_attribute() {
    for (first, rejected) in [(47, 1), (48, 1), (54, 0), (900, 0), (1016, 1), (1023, 1), (65535, 1)] {
        let image = mft_entry(30, 1, 1, first, &[name("a", 1)]);
        assert_eq!(carved(&image, rejected).len() as u64, 1 - rejected, "{first}");
    }
}

#[test]
fn p8_namespaces() {
    let cases: [(&[u8], usize); 9] = [
        (&[2, 3], 1),
        (&[1, 3], 0),
        (&[0, 2], 0),
        (&[0, 0], 1),
        (&[2, 1], 1),
        (&[3, 1], 0),
        (&[2, 2], 0),
        (&[2, 0, 1], 2),
        (&[0, 2, 3, 1], 2),
    ];
    let names = ["first", "second", "third", "fourth"];
    for (namespaces, expected) in cases {
        let attributes: Vec<_> = names
            .iter()
            .zip(namespaces)
            .map(|(text, &namespace)| name(text, namespace))
            .collect();
        assert_eq!(kept(&attributes).as_deref(), Some(names[expected]), "{namespaces:?}");
    }
}

#[test]
fn the_20th_attribute_is_seen_and_the_21st_is_not() {
    for (before, expected) in [(0, true), (19, true), (20, false)] {
        let mut attributes = vec![other_attribute(); before];
        attributes.push(name("a", 1));
        assert_eq!(kept(&attributes).is_some(), expected, "behind {before}");
    }
}

#[test]
fn attributes_without_a_name() {
    let with = |place: usize, bytes: &[u8]| {
        let mut attribute = name("ab", 1);
        attribute[place..place + bytes.len()].copy_from_slice(bytes);
        kept(&[attribute, name("behind", 2)])
    };
    assert_eq!(with(0, &[0x30]).as_deref(), Some("ab"));
    let behind = Some("behind".to_owned());
    assert_eq!(with(0, &[0x31]), behind, "another type");
    assert_eq!(with(8, &[1]), behind, "non-resident");
    assert_eq!(with(16, &[65]), behind, "content of 65 bytes");
    assert_eq!(with(24 + 64, &[0]), behind, "a name of no units");
    assert_eq!(with(24 + 64, &[200]), behind, "a name past the attribute");
    assert_eq!(with(0, &[0xff; 4]), None, "the end");
    assert_eq!(with(4, &[7]), None, "a length of 7");
    assert_eq!(with(4, &[0, 4]), None, "a length past the entry");
}

/// The first name begins at 146 of these entries, so that unit 182 of it is the first sector's end.
#[test]
fn a_name_is_that_of_the_restored_entry() {
    let names = [
        "a".repeat(182),
        "b".repeat(183),
        "c".repeat(184),
        "\u{20ac}".repeat(255),
        "\u{1F600}".repeat(127),
        format!("a{}", "\u{1F600}".repeat(91)),
        format!("a{}", "\u{1F600}".repeat(127)),
    ];
    for text in names {
        let entry = mft_entry(30, 1, 1, 56, &[name(&text, 1)]);
        let bytes = utf16(&text);
        assert_eq!(entry[146..510], bytes[..364]);
        assert_eq!(entry[510..512], CHECK);
        assert!(bytes.len() == 364 || bytes[364..366] != CHECK);
        let image = [entry.clone(), entry].concat();
        for entry in carved(&image, 0) {
            assert_eq!(entry.filename, text, "at {}", entry.offset);
        }
    }
}

#[test]
fn a_parent_and_a_namespace_are_those_of_the_restored_entry() {
    let attribute = name_attribute("a", 1, reference(0x1234_5678_9abc, 0xfedc));
    // The parent's sequence stands at 30 of the attribute, the name's length and its namespace at 88.
    for first in [510 - 30, 510 - 88] {
        let image = mft_entry(30, 1, 1, first, &[attribute.clone(), name("later", 3)]);
        let entry = &carved(&image, 0)[0];
        assert_eq!(entry.filename, "a");
        assert_eq!((entry.parent_entry, entry.parent_sequence), (0x1234_5678_9abc, 0xfedc));
    }
}

#[test]
fn an_array_that_is_not_sound_is_rejected() {
    let entry = |first, array| stored(true_entry(30, 1, 1, first, &[name("a", 1)]), array);
    let is_carved = |image: &[u8]| carve_mft_entries(image).1.entries_carved == 1;
    let with = |place: usize, byte| {
        let mut image = entry(56, ARRAY);
        image[place] = byte;
        is_carved(&image)
    };
    for array in [48, 50] {
        assert!(is_carved(&entry(56, array)), "the array at {array}");
    }
    let mut within = true_entry(30, 1, 1, 48, &[name("a", 1)]);
    for (place, byte) in [(4, 48), (6, 3), (510, 0x30), (1022, 0x30)] {
        within[place] = byte;
    }
    assert_eq!(within[48..50], within[510..512]);
    assert!(!is_carved(&within), "its numbers are the first attribute's");
    assert!(is_carved(&entry(600, 504)), "it ends at 510");
    assert!(!is_carved(&entry(600, 506)), "it passes 510");
    assert!(!is_carved(&entry(56, 46)), "it begins below 48");
    assert!(!with(4, 49), "its offset is odd");
    for count in [0, 2, 3, 4, 9] {
        assert_eq!(with(6, count), count == 3, "its count is {count}");
    }
    for place in [ARRAY, ARRAY + 1, 510, 511, 1022, 1023] {
        assert!(!with(place, 9), "another byte at {place}");
    }
    for place in [ARRAY + 2, ARRAY + 5, 509, 512, 1021] {
        assert!(with(place, 9), "another byte at {place}");
    }
}
