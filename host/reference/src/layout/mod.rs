//! How header, map records and directory entries are laid out in bytes.
//! Numbers have their high byte first.

pub mod entry;
pub mod header;
pub mod record;

/// The two bytes at `offset` as a number.
pub fn word_at(bytes: &[u8], offset: usize) -> usize {
    usize::from(u16::from_be_bytes([bytes[offset], bytes[offset + 1]]))
}

/// The four bytes at `offset` as a number.
pub fn long_at(bytes: &[u8], offset: usize) -> u32 {
    u32::from_be_bytes([
        bytes[offset],
        bytes[offset + 1],
        bytes[offset + 2],
        bytes[offset + 3],
    ])
}

/// Writes a number below 2^16 into two bytes.
pub fn set_word(bytes: &mut [u8], offset: usize, word: usize) {
    bytes[offset..offset + 2].copy_from_slice(&(word as u16).to_be_bytes());
}

/// Writes a number into four bytes.
pub fn set_long(bytes: &mut [u8], offset: usize, long: u32) {
    bytes[offset..offset + 4].copy_from_slice(&long.to_be_bytes());
}
