//! Where the fields of a record lie, by the scope's table, and a writer of fixed parts. It is written apart from the
//! original and from our library, so that a mistake in one is not repeated here.

/// The offsets at which the two versions differ. The record length is at 0, the versions at 4 and 6, the file
/// reference at 8.
#[derive(Debug)]
pub struct Layout {
    pub major_version: u16,
    /// The bytes of a file reference.
    pub reference: usize,
    pub parent_reference: usize,
    pub usn: usize,
    pub filetime: usize,
    /// Reason, source, security and attributes, four bytes each.
    pub reason: usize,
    pub name_length: usize,
    pub name_offset: usize,
    /// The bytes before the name.
    pub fixed: usize,
}

pub const V2: Layout = Layout {
    major_version: 2,
    reference: 8,
    parent_reference: 0x10,
    usn: 0x18,
    filetime: 0x20,
    reason: 0x28,
    name_length: 0x38,
    name_offset: 0x3a,
    fixed: 60,
};

pub const V3: Layout = Layout {
    major_version: 3,
    reference: 16,
    parent_reference: 0x18,
    usn: 0x28,
    filetime: 0x30,
    reason: 0x38,
    name_length: 0x48,
    name_offset: 0x4a,
    fixed: 76,
};

pub const LAYOUTS: [&Layout; 2] = [&V2, &V3];

/// The largest length field that is accepted.
pub const LARGEST: usize = 65536;

pub const FILE_REFERENCE: usize = 8;
pub const MINOR_VERSION: usize = 6;
pub const MAJOR_VERSION: usize = 4;

/// The little-endian number of `width` bytes at `offset`, which lie in `data`.
pub fn number(data: &[u8], offset: usize, width: usize) -> u64 {
    let bytes = &data[offset..offset + width];
    bytes.iter().rev().fold(0, |n, &byte| n << 8 | u64::from(byte))
}

/// Writes the low `width` bytes of a number at `offset`, little endian.
pub fn put(data: &mut [u8], offset: usize, width: usize, value: u64) {
    data[offset..offset + width].copy_from_slice(&value.to_le_bytes()[..width]);
}

/// The fields of a fixed part. A reference is its low and its high half; version 2 has no room for the high one.
#[derive(Debug, Clone)]
pub struct Fields {
    pub record_length: u32,
    pub major_version: u16,
    pub minor_version: u16,
    pub file_reference: [u64; 2],
    pub parent_reference: [u64; 2],
    pub usn: u64,
    pub filetime: u64,
    pub reason: u32,
    pub source_info: u32,
    pub security_id: u32,
    pub file_attributes: u32,
    pub name_length: u16,
    pub name_offset: u16,
}

impl Fields {
    /// The scope's record E with a name of `units` UTF-16 units right behind the fixed part; for version 3 with the
    /// upper halves of its references set.
    pub fn example(layout: &Layout, units: usize) -> Self {
        Self {
            record_length: (layout.fixed + 2 * units) as u32,
            major_version: layout.major_version,
            minor_version: 0,
            file_reference: [42 | 3 << 48, 0x1122_3344_5566_7788],
            parent_reference: [5 | 5 << 48, 0x99aa_bbcc_ddee_ff01],
            usn: 4096,
            filetime: 125_911_584_000_000_000,
            reason: 0x100,
            source_info: 0,
            security_id: 0,
            file_attributes: 0x20,
            name_length: 2 * units as u16,
            name_offset: layout.fixed as u16,
        }
    }

    /// Appends the fixed part.
    pub fn append(&self, layout: &Layout, bytes: &mut Vec<u8>) {
        let start = bytes.len();
        bytes.resize(start + layout.fixed, 0);
        let fixed = &mut bytes[start..];
        put(fixed, 0, 4, self.record_length.into());
        put(fixed, MAJOR_VERSION, 2, self.major_version.into());
        put(fixed, MINOR_VERSION, 2, self.minor_version.into());
        for half in 0..layout.reference / 8 {
            put(fixed, FILE_REFERENCE + 8 * half, 8, self.file_reference[half]);
            put(
                fixed,
                layout.parent_reference + 8 * half,
                8,
                self.parent_reference[half],
            );
        }
        put(fixed, layout.usn, 8, self.usn);
        put(fixed, layout.filetime, 8, self.filetime);
        put(fixed, layout.reason, 4, self.reason.into());
        put(fixed, layout.reason + 4, 4, self.source_info.into());
        put(fixed, layout.reason + 8, 4, self.security_id.into());
        put(fixed, layout.reason + 12, 4, self.file_attributes.into());
        put(fixed, layout.name_length, 2, self.name_length.into());
        put(fixed, layout.name_offset, 2, self.name_offset.into());
    }
}
