//! Where the fields of an MFT entry lie, by the scope's sentences, and a writer of entries. It is written apart from
//! the original and from our library, so that a mistake in one is not repeated here.

/// The bytes of an entry.
pub const ENTRY: usize = 1024;

/// The first four bytes of an entry.
pub const SIGNATURE: [u8; 4] = *b"FILE";

/// The bytes of a sector, and where the ends of an entry's sectors stand, two bytes each.
pub const SECTOR: usize = 512;
pub const SECTOR_ENDS: [usize; ENTRY / SECTOR] = [510, 1022];

// Offsets in an entry. The first two are the update sequence array's offset and how many numbers of two bytes it has.
pub const ARRAY_OFFSET: usize = 4;
pub const ARRAY_COUNT: usize = 6;
pub const SEQUENCE: usize = 16;
pub const FIRST_ATTRIBUTE: usize = 20;
pub const FLAGS: usize = 22;
pub const NUMBER: usize = 44;

/// The flags of an entry in use and of a directory.
pub const IN_USE: u64 = 1;
pub const DIRECTORY: u64 = 2;

// Offsets in an attribute; its type is at 0.
pub const LENGTH: usize = 4;
pub const NON_RESIDENT: usize = 8;
pub const CONTENT_SIZE: usize = 16;
pub const CONTENT_OFFSET: usize = 20;

/// Where the content of a resident attribute mostly begins.
pub const RESIDENT: usize = 24;

/// The type of an attribute with a name, and what stands in place of a type behind the last attribute.
pub const FILE_NAME: u64 = 0x30;
pub const END: u64 = 0xffff_ffff;

// Offsets in the content of an attribute with a name; the parent is at 0.
pub const UNITS: usize = 64;
pub const NAMESPACE: usize = 65;
pub const NAME: usize = 66;

/// Where the first attribute of an entry mostly stands.
pub const FIRST: usize = 56;

/// Where the update sequence array mostly stands, its numbers (the check value and the true end of each sector), and its
/// bytes.
pub const ARRAY: usize = 48;
pub const NUMBERS: usize = 1 + SECTOR_ENDS.len();
pub const ARRAY_BYTES: usize = 2 * NUMBERS;

/// The check value of most entries: no letter of a name, no type and no length of an attribute.
pub const CHECK: u16 = 0xa55a;

/// A name, with the parent and the namespace.
#[derive(Debug, Clone)]
pub struct Name {
    pub parent: u64,
    pub namespace: u8,
    pub units: Vec<u16>,
}

impl Name {
    /// A name of so many letters, each another one, under 5:5.
    pub fn of(units: usize, namespace: u8) -> Self {
        Self {
            parent: 5 | 5 << 48,
            namespace,
            units: (0..units).map(|at| 0x61 + (at % 26) as u16).collect(),
        }
    }

    /// The content of the attribute; what lies between the parent and the name's length is no zero.
    pub fn content(&self) -> Vec<u8> {
        let mut content = vec![0x7e; NAME];
        content[..8].copy_from_slice(&self.parent.to_le_bytes());
        content[UNITS] = self.units.len() as u8;
        content[NAMESPACE] = self.namespace;
        content.extend(self.units.iter().flat_map(|unit| unit.to_le_bytes()));
        content
    }

    /// The shortest attribute that holds the name.
    pub fn attribute_length(&self) -> usize {
        RESIDENT + NAME + 2 * self.units.len()
    }
}

/// An entry while it is written, with the true ends of its sectors. What does not lie inside is not written.
#[derive(Debug, Clone)]
pub struct Entry {
    pub bytes: Vec<u8>,
    /// Where the next attribute stands.
    pub next: usize,
    /// Where the update sequence array is written when the entry is stored, and its check value.
    pub array: usize,
    pub check: u16,
}

impl Entry {
    /// An entry of these bytes.
    pub fn of(bytes: Vec<u8>) -> Self {
        Self {
            bytes,
            next: 0,
            array: ARRAY,
            check: CHECK,
        }
    }

    /// Entry 42:3 in use, without attributes; the first one stands at `first`. Bytes of no meaning are `filler`.
    pub fn new(first: usize, filler: u8) -> Self {
        let mut entry = Self::of(vec![filler; ENTRY]);
        entry.next = first;
        entry.lay(0, &SIGNATURE);
        entry.array_at(ARRAY);
        entry.put(ARRAY_COUNT, 2, NUMBERS as u64);
        entry.put(SEQUENCE, 2, 3);
        entry.put(FIRST_ATTRIBUTE, 2, first as u64);
        entry.put(FLAGS, 2, IN_USE);
        entry.put(NUMBER, 4, 42);
        entry
    }

    /// Lays bytes over those at an offset.
    pub fn lay(&mut self, at: usize, bytes: &[u8]) {
        let room = ENTRY.saturating_sub(at).min(bytes.len());
        if room > 0 {
            self.bytes[at..at + room].copy_from_slice(&bytes[..room]);
        }
    }

    /// Writes the low `width` bytes of a number at an offset, little endian.
    pub fn put(&mut self, at: usize, width: usize, value: u64) {
        self.lay(at, &value.to_le_bytes()[..width]);
    }

    /// Appends the header of a resident attribute of this type and length, whose content fills the rest; gives its
    /// offset.
    pub fn attribute(&mut self, kind: u64, length: usize) -> usize {
        let at = self.next;
        self.put(at, 4, kind);
        self.put(at + LENGTH, 4, length as u64);
        if length > NON_RESIDENT {
            self.put(at + NON_RESIDENT, 1, 0);
        }
        if length >= RESIDENT {
            self.put(at + CONTENT_SIZE, 4, (length - RESIDENT) as u64);
            self.put(at + CONTENT_OFFSET, 2, RESIDENT as u64);
        }
        self.next = at + length;
        at
    }

    /// Appends an attribute with a name, up to the next word of 8 bytes; gives its offset.
    pub fn name(&mut self, name: &Name) -> usize {
        let at = self.attribute(FILE_NAME, name.attribute_length().next_multiple_of(8));
        self.put(at + CONTENT_SIZE, 4, (NAME + 2 * name.units.len()) as u64);
        self.lay(at + RESIDENT, &name.content());
        at
    }

    /// Appends an attribute with a name that it just holds; gives its offset.
    pub fn fitting_name(&mut self, name: &Name) -> usize {
        let at = self.name(name);
        self.put(at + LENGTH, 4, name.attribute_length() as u64);
        self.next = at + name.attribute_length();
        at
    }

    /// Has the update sequence array written at an offset, and says so in the header.
    pub fn array_at(&mut self, offset: usize) {
        self.array = offset;
        self.put(ARRAY_OFFSET, 2, offset as u64);
    }

    /// Puts the end behind the attributes.
    pub fn end(mut self) -> Self {
        self.put(self.next, 4, END);
        self
    }

    /// The entry as a volume stores it: the true ends of the sectors in the array, and the check value in their place.
    pub fn stored(mut self) -> Vec<u8> {
        let ends = SECTOR_ENDS.map(|at| [self.bytes[at], self.bytes[at + 1]]);
        self.put(self.array, 2, self.check.into());
        for (number, end) in (1..).zip(ends) {
            self.lay(self.array + 2 * number, &end);
        }
        for at in SECTOR_ENDS {
            self.put(at, 2, self.check.into());
        }
        self.bytes
    }

    /// The entry with the end behind its attributes, as it is stored.
    pub fn ended(self) -> Vec<u8> {
        self.end().stored()
    }
}

/// An entry that is carved: standard information, a short and a long name, and data. The true ends of its sectors are
/// zeros, which are not stored there.
pub fn sound() -> Vec<u8> {
    let mut entry = Entry::new(FIRST, 0);
    entry.attribute(0x10, 96);
    entry.name(&Name::of(8, 2));
    entry.name(&Name::of(12, 1));
    entry.attribute(0x80, 40);
    entry.ended()
}
