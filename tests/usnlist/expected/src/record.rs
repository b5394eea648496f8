//! Records to make journals of.

/// The reasons that decide what a rewind does with a record, and one that does not.
pub const CREATE: u32 = 0x100;
pub const DELETE: u32 = 0x200;
pub const OLD_NAME: u32 = 0x1000;
pub const NEW_NAME: u32 = 0x2000;
pub const CLOSE: u32 = 0x8000_0000;

/// The first moment of the year 2000, the time of E.
pub const TIME: i64 = 125_911_584_000_000_000;

/// An entry and its sequence.
#[derive(Clone, Copy)]
pub struct Key(pub u64, pub u16);

/// The folder that all others are in.
pub const ROOT: Key = Key(5, 5);

/// A record of version 2 or 3; a version 3 reference has the key's 64 bits as its lower half.
#[derive(Clone)]
pub struct Record {
    pub version: u16,
    pub file: Key,
    pub parent: Key,
    pub usn: i64,
    pub time: i64,
    pub reason: u32,
    pub name: Vec<u16>,
}

/// A version 2 record with a name.
pub fn record(file: Key, parent: Key, reason: u32, name: &str) -> Record {
    Record {
        version: 2,
        file,
        parent,
        usn: 4096,
        time: TIME,
        reason,
        name: name.encode_utf16().collect(),
    }
}

impl Record {
    pub fn version_3(mut self) -> Self {
        self.version = 3;
        self
    }

    pub fn usn(mut self, usn: i64) -> Self {
        self.usn = usn;
        self
    }

    pub fn time(mut self, time: i64) -> Self {
        self.time = time;
        self
    }

    pub fn units(mut self, name: &[u16]) -> Self {
        self.name = name.to_vec();
        self
    }

    /// The record's bytes, as many as its length field says.
    pub fn bytes(&self) -> Vec<u8> {
        let (fixed, upper): (usize, &[u8]) = match self.version {
            2 => (60, &[]),
            _ => (76, &[0xA5; 8]),
        };
        let length = fixed + 2 * self.name.len();
        let mut bytes = Vec::new();
        bytes.extend((length as u32).to_le_bytes());
        bytes.extend(self.version.to_le_bytes());
        bytes.extend([0, 0]);
        for key in [self.file, self.parent] {
            bytes.extend((key.0 | u64::from(key.1) << 48).to_le_bytes());
            bytes.extend(upper);
        }
        bytes.extend(self.usn.to_le_bytes());
        bytes.extend(self.time.to_le_bytes());
        bytes.extend(self.reason.to_le_bytes());
        bytes.extend([0; 8]);
        bytes.extend(0x20u32.to_le_bytes());
        bytes.extend((2 * self.name.len() as u16).to_le_bytes());
        bytes.extend((fixed as u16).to_le_bytes());
        bytes.extend(self.name.iter().flat_map(|unit| unit.to_le_bytes()));
        bytes
    }
}

/// Appends bytes to a journal, and zeros up to a multiple of 8.
pub fn append(journal: &mut Vec<u8>, bytes: &[u8]) {
    journal.extend(bytes);
    journal.resize(journal.len().next_multiple_of(8), 0);
}

/// The records one after the other.
pub fn journal(records: &[Record]) -> Vec<u8> {
    let mut journal = Vec::new();
    for record in records {
        append(&mut journal, &record.bytes());
    }
    journal
}
