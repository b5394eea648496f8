//! Records and MFT entries as bytes.

/// A key as a file reference of 8 bytes: 48 bits of entry, 16 of sequence.
pub fn reference(entry: u64, sequence: u16) -> u64 {
    u64::from(sequence) << 48 | entry
}

/// The UTF-16 of a text, little endian.
pub fn utf16(text: &str) -> Vec<u8> {
    text.encode_utf16().flat_map(u16::to_le_bytes).collect()
}

/// A record before it is written. The length and the name's place are those of a sound record unless they are set.
#[derive(Clone)]
pub struct Record {
    pub version: u16,
    pub length: Option<u32>,
    pub file: u64,
    pub parent: u64,
    pub usn: i64,
    pub time: i64,
    pub reason: u32,
    pub source: u32,
    pub security: u32,
    pub attributes: u32,
    pub name: Vec<u8>,
    pub name_length: Option<u16>,
    pub name_offset: Option<u16>,
}

/// The scope's record E.
pub fn e() -> Record {
    Record {
        version: 2,
        length: None,
        file: reference(42, 3),
        parent: reference(5, 5),
        usn: 4096,
        time: 125_911_584_000_000_000,
        reason: 0x100,
        source: 0,
        security: 0,
        attributes: 0x20,
        name: utf16("ab"),
        name_length: None,
        name_offset: None,
    }
}

/// E with another file, parent, reason and name.
pub fn change(file: (u64, u16), parent: (u64, u16), reason: u32, name: &str) -> Record {
    Record {
        file: reference(file.0, file.1),
        parent: reference(parent.0, parent.1),
        reason,
        name: utf16(name),
        ..e()
    }
}

impl Record {
    /// The fixed part and the name, as versions 2 and 3 lay them out, with no bytes behind them.
    pub fn bytes(&self) -> Vec<u8> {
        let fixed = if self.version == 3 { 76 } else { 60 };
        let length = self.length.unwrap_or((fixed + self.name.len()) as u32);
        let mut bytes = Vec::new();
        bytes.extend(length.to_le_bytes());
        bytes.extend(self.version.to_le_bytes());
        bytes.extend([0; 2]);
        for reference in [self.file, self.parent] {
            bytes.extend(reference.to_le_bytes());
            if self.version == 3 {
                bytes.extend([0xaa; 8]);
            }
        }
        bytes.extend(self.usn.to_le_bytes());
        bytes.extend(self.time.to_le_bytes());
        for field in [self.reason, self.source, self.security, self.attributes] {
            bytes.extend(field.to_le_bytes());
        }
        bytes.extend(self.name_length.unwrap_or(self.name.len() as u16).to_le_bytes());
        bytes.extend(self.name_offset.unwrap_or(fixed as u16).to_le_bytes());
        assert_eq!(bytes.len(), fixed);
        bytes.extend(&self.name);
        bytes
    }
}

/// Records one after another, each at a multiple of 8.
pub fn journal(records: &[Record]) -> Vec<u8> {
    let mut bytes = Vec::new();
    for record in records {
        bytes.extend(record.bytes());
        bytes.resize(bytes.len().next_multiple_of(8), 0);
    }
    bytes
}

/// The 8 bytes that a record of some length and version begins with.
pub fn header(length: u32, version: u16) -> Vec<u8> {
    let mut bytes = length.to_le_bytes().to_vec();
    bytes.extend(version.to_le_bytes());
    bytes.extend([0; 2]);
    bytes
}

/// A resident attribute of an MFT entry that has a file's name.
pub fn name_attribute(name: &str, namespace: u8, parent: u64) -> Vec<u8> {
    let name = utf16(name);
    let mut content = parent.to_le_bytes().to_vec();
    content.resize(64, 0);
    content.extend([(name.len() / 2) as u8, namespace]);
    content.extend(&name);
    let length = (24 + content.len()).next_multiple_of(8);
    let mut attribute = 0x30_u32.to_le_bytes().to_vec();
    attribute.extend((length as u32).to_le_bytes());
    attribute.resize(16, 0);
    attribute.extend((content.len() as u32).to_le_bytes());
    attribute.extend(24_u16.to_le_bytes());
    attribute.resize(24, 0);
    attribute.extend(content);
    attribute.resize(length, 0);
    attribute
}

/// An attribute of another type, as short as one may be.
pub fn other_attribute() -> Vec<u8> {
    vec![0x10, 0, 0, 0, 8, 0, 0, 0]
}

/// Where the update sequence array of an entry stands here, and the check value.
pub const ARRAY: usize = 48;
pub const CHECK: [u8; 2] = [7, 0];

/// An MFT entry of 1024 bytes as it is stored, with its attributes from an offset on.
pub fn mft_entry(number: u32, sequence: u16, flags: u16, first: u16, attributes: &[Vec<u8>]) -> Vec<u8> {
    stored(true_entry(number, sequence, flags, first, attributes), ARRAY)
}

/// The same with its true sector ends, before it is stored; it has no array.
pub fn true_entry(number: u32, sequence: u16, flags: u16, first: u16, attributes: &[Vec<u8>]) -> Vec<u8> {
    let mut entry = b"FILE".to_vec();
    entry.resize(1024, 0);
    entry[16..18].copy_from_slice(&sequence.to_le_bytes());
    entry[20..22].copy_from_slice(&first.to_le_bytes());
    entry[22..24].copy_from_slice(&flags.to_le_bytes());
    entry[44..48].copy_from_slice(&number.to_le_bytes());
    let mut attributes = attributes.concat();
    attributes.extend([0xff; 4]);
    let first = usize::from(first);
    for (place, byte) in entry.iter_mut().skip(first).zip(attributes) {
        *place = byte;
    }
    entry
}

/// An entry as it is stored: the array at an offset has the check value and the true sector ends, which the check value replaces.
pub fn stored(mut entry: Vec<u8>, array: usize) -> Vec<u8> {
    entry[4..6].copy_from_slice(&(array as u16).to_le_bytes());
    entry[6..8].copy_from_slice(&3_u16.to_le_bytes());
    entry.copy_within(510..512, array + 2);
    entry.copy_within(1022..1024, array + 4);
    for place in [array, 510, 1022] {
        entry[place..place + 2].copy_from_slice(&CHECK);
    }
    entry
}
