//! Stands in for the original's `usn/attributes.rs`: the file attribute bits of a record. Every bit is kept.

#[derive(Debug, Clone, Copy, PartialEq, Eq, Hash)]
pub struct FileAttributes(u32);

impl FileAttributes {
    pub fn from_bits_retain(bits: u32) -> Self {
        Self(bits)
    }

    pub fn bits(&self) -> u32 {
        self.0
    }
}
