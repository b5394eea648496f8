//! What a record says of its file.

use std::ops::{BitAnd, BitOr};

/// The file attribute bits of a record. Every bit is kept, named or not. The names are those of Microsoft's page on file
/// attributes without their prefix.
#[derive(Debug, Clone, Copy, PartialEq, Eq, Hash, Default)]
pub struct FileAttributes(u32);

impl FileAttributes {
    pub const READONLY: Self = Self(0x0000_0001);
    pub const HIDDEN: Self = Self(0x0000_0002);
    pub const SYSTEM: Self = Self(0x0000_0004);
    pub const DIRECTORY: Self = Self(0x0000_0010);
    pub const ARCHIVE: Self = Self(0x0000_0020);
    pub const DEVICE: Self = Self(0x0000_0040);
    pub const NORMAL: Self = Self(0x0000_0080);
    pub const TEMPORARY: Self = Self(0x0000_0100);
    pub const SPARSE_FILE: Self = Self(0x0000_0200);
    pub const REPARSE_POINT: Self = Self(0x0000_0400);
    pub const COMPRESSED: Self = Self(0x0000_0800);
    pub const OFFLINE: Self = Self(0x0000_1000);
    pub const NOT_CONTENT_INDEXED: Self = Self(0x0000_2000);
    pub const ENCRYPTED: Self = Self(0x0000_4000);
    pub const INTEGRITY_STREAM: Self = Self(0x0000_8000);
    pub const VIRTUAL: Self = Self(0x0001_0000);
    pub const NO_SCRUB_DATA: Self = Self(0x0002_0000);

    /// No bit.
    pub const fn empty() -> Self {
        Self(0)
    }

    /// These bits.
    pub const fn from_bits_retain(bits: u32) -> Self {
        Self(bits)
    }

    /// The bits.
    pub const fn bits(&self) -> u32 {
        self.0
    }

    /// Whether no bit is set.
    pub const fn is_empty(&self) -> bool {
        self.0 == 0
    }

    /// Whether every bit of `other` is set.
    pub const fn contains(&self, other: Self) -> bool {
        self.0 & other.0 == other.0
    }

    /// Whether some bit of `other` is set.
    pub const fn intersects(&self, other: Self) -> bool {
        self.0 & other.0 != 0
    }
}

impl BitOr for FileAttributes {
    type Output = Self;

    fn bitor(self, other: Self) -> Self {
        Self(self.0 | other.0)
    }
}

impl BitAnd for FileAttributes {
    type Output = Self;

    fn bitand(self, other: Self) -> Self {
        Self(self.0 & other.0)
    }
}
