//! "bytes are little-endian". Reading past the end gives 0, so that no input can
//! make these functions panic; callers have checked the lengths before.

/// The byte at `at`.
pub fn u8_at(bytes: &[u8], at: usize) -> u8 {
    bytes.get(at).copied().unwrap_or(0)
}

/// The two bytes at `at`.
pub fn u16_at(bytes: &[u8], at: usize) -> u16 {
    u16::from_le_bytes([u8_at(bytes, at), u8_at(bytes, at.saturating_add(1))])
}

/// The four bytes at `at`.
pub fn u32_at(bytes: &[u8], at: usize) -> u32 {
    u32::from(u16_at(bytes, at)) | u32::from(u16_at(bytes, at.saturating_add(2))) << 16
}

/// The eight bytes at `at`.
pub fn u64_at(bytes: &[u8], at: usize) -> u64 {
    u64::from(u32_at(bytes, at)) | u64::from(u32_at(bytes, at.saturating_add(4))) << 32
}

/// Stores `values` from `at` on; what lies past the end is dropped.
pub fn put(bytes: &mut [u8], at: usize, values: &[u8]) {
    for (place, value) in bytes.iter_mut().skip(at).zip(values) {
        *place = *value;
    }
}
