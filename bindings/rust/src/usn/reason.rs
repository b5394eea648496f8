//! Why a record was written.

use std::ops::{BitAnd, BitOr};

/// The reason bits of a record. Every bit is kept, named or not. The names are those of Microsoft's page on `USN_RECORD_V2`
/// without their prefix.
#[derive(Debug, Clone, Copy, PartialEq, Eq, Hash, Default)]
pub struct UsnReason(u32);

impl UsnReason {
    pub const DATA_OVERWRITE: Self = Self(0x0000_0001);
    pub const DATA_EXTEND: Self = Self(0x0000_0002);
    pub const DATA_TRUNCATION: Self = Self(0x0000_0004);
    pub const NAMED_DATA_OVERWRITE: Self = Self(0x0000_0010);
    pub const NAMED_DATA_EXTEND: Self = Self(0x0000_0020);
    pub const NAMED_DATA_TRUNCATION: Self = Self(0x0000_0040);
    pub const FILE_CREATE: Self = Self(0x0000_0100);
    pub const FILE_DELETE: Self = Self(0x0000_0200);
    pub const EA_CHANGE: Self = Self(0x0000_0400);
    pub const SECURITY_CHANGE: Self = Self(0x0000_0800);
    pub const RENAME_OLD_NAME: Self = Self(0x0000_1000);
    pub const RENAME_NEW_NAME: Self = Self(0x0000_2000);
    pub const INDEXABLE_CHANGE: Self = Self(0x0000_4000);
    pub const BASIC_INFO_CHANGE: Self = Self(0x0000_8000);
    pub const HARD_LINK_CHANGE: Self = Self(0x0001_0000);
    pub const COMPRESSION_CHANGE: Self = Self(0x0002_0000);
    pub const ENCRYPTION_CHANGE: Self = Self(0x0004_0000);
    pub const OBJECT_ID_CHANGE: Self = Self(0x0008_0000);
    pub const REPARSE_POINT_CHANGE: Self = Self(0x0010_0000);
    pub const STREAM_CHANGE: Self = Self(0x0020_0000);
    pub const TRANSACTED_CHANGE: Self = Self(0x0040_0000);
    pub const INTEGRITY_CHANGE: Self = Self(0x0080_0000);
    pub const CLOSE: Self = Self(0x8000_0000);

    /// No bit.
    pub const fn empty() -> Self {
        Self(0)
    }

    /// These bits.
    pub const fn from_bits_retain(bits: u32) -> Self {
        Self(bits)
    }

    /// The bits.
    pub const fn bits(&self) -> u32 {
        self.0
    }

    /// Whether no bit is set.
    pub const fn is_empty(&self) -> bool {
        self.0 == 0
    }

    /// Whether every bit of `other` is set.
    pub const fn contains(&self, other: Self) -> bool {
        self.0 & other.0 == other.0
    }

    /// Whether some bit of `other` is set.
    pub const fn intersects(&self, other: Self) -> bool {
        self.0 & other.0 != 0
    }
}

impl BitOr for UsnReason {
    type Output = Self;

    fn bitor(self, other: Self) -> Self {
        Self(self.0 | other.0)
    }
}

impl BitAnd for UsnReason {
    type Output = Self;

    fn bitand(self, other: Self) -> Self {
        Self(self.0 & other.0)
    }
}
