//! The part of the crate `safe_read` that the original uses: little-endian reads that are 0 where they run past the
//! slice. The original says so of its own reads in `bytes.rs`, and this crate is taken to do the same.

/// Two bytes at `offset`.
pub fn le_u16(data: &[u8], offset: usize) -> u16 {
    u16::from_le_bytes(bytes(data, offset))
}

/// Four bytes at `offset`.
pub fn le_u32(data: &[u8], offset: usize) -> u32 {
    u32::from_le_bytes(bytes(data, offset))
}

/// Eight bytes at `offset`.
pub fn le_u64(data: &[u8], offset: usize) -> u64 {
    u64::from_le_bytes(bytes(data, offset))
}

/// The `N` bytes at `offset`, or zeros where not all of them lie in `data`.
fn bytes<const N: usize>(data: &[u8], offset: usize) -> [u8; N] {
    data.get(offset..)
        .and_then(|rest| rest.first_chunk())
        .copied()
        .unwrap_or([0; N])
}
