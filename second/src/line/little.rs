//! Numbers in bytes, little-endian.

/// Bytes of a number of 32 bits, and of 64.
pub const WORD: usize = 4;
pub const LONG: usize = 8;

pub fn word(bytes: &[u8], at: usize) -> u32 {
    u32::from_le_bytes(bytes[at..at + WORD].try_into().unwrap())
}

pub fn long(bytes: &[u8], at: usize) -> u64 {
    u64::from_le_bytes(bytes[at..at + LONG].try_into().unwrap())
}

pub fn put_word(bytes: &mut [u8], at: usize, word: u32) {
    bytes[at..at + WORD].copy_from_slice(&word.to_le_bytes());
}

pub fn put_long(bytes: &mut [u8], at: usize, long: u64) {
    bytes[at..at + LONG].copy_from_slice(&long.to_le_bytes());
}
