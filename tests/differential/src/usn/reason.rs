//! Stands in for the original's `usn/reason.rs`: the reason bits of a record. Every bit is kept, named or not.

#[derive(Debug, Clone, Copy, PartialEq, Eq, Hash)]
pub struct UsnReason(u32);

#[allow(dead_code)] // the original's files use some of these, and later comparisons the others
impl UsnReason {
    pub const FILE_CREATE: Self = Self(0x100);
    pub const FILE_DELETE: Self = Self(0x200);
    pub const RENAME_OLD_NAME: Self = Self(0x1000);
    pub const RENAME_NEW_NAME: Self = Self(0x2000);

    pub fn from_bits_retain(bits: u32) -> Self {
        Self(bits)
    }

    pub fn bits(&self) -> u32 {
        self.0
    }

    /// Whether every bit of `other` is set.
    pub fn contains(&self, other: Self) -> bool {
        self.0 & other.0 == other.0
    }
}
