//! The disk header, bytes 0 to 95 of block 0.

use super::set_word;
use crate::geometry::{
    backward_table, side_place_table, BLOCK_LEN, SECTORS, SECTORS_PER_BLOCK, SECTORS_PER_SIDE,
    SECTORS_PER_TRACK, TRACKS, TRACK_OFFSET,
};

/// The first bytes of a disk (§6.1).
pub const SIGNATURE: [u8; 4] = *b"QL5A";

/// Bytes of the disk header, before the map.
pub const HEADER_LEN: usize = 96;

/// Most bytes of a disk name (§6.15).
pub const DISK_NAME_LEN: usize = 10;

/// Offset of the update count (§6.3).
pub const UPDATES: usize = 16;

/// Offset of the free word (§6.4).
pub const FREE: usize = 20;

/// Offset of the good word (§6.18).
pub const GOOD: usize = 22;

/// Offset of the directory's length: blocks, then bytes over (§6.6).
pub const DIRECTORY_LEN: usize = 34;

/// The header's words that are the same on every disk (§6.5).
pub const FIXED_WORDS: [(usize, usize); 5] = [
    (24, SECTORS),
    (26, SECTORS_PER_SIDE),
    (28, SECTORS_PER_TRACK),
    (30, TRACKS),
    (32, SECTORS_PER_BLOCK),
];

/// Offset of the word that tells the shift of a track against the next (§6.7).
pub const OFFSET_FIELD: usize = 38;

/// The value of that word.
pub const TRACK_OFFSET_WORD: usize = TRACK_OFFSET;

/// The header's two tables and their offsets (§6.7).
pub fn tables() -> [(usize, [u8; SECTORS_PER_TRACK]); 2] {
    [(40, side_place_table()), (58, backward_table())]
}

/// What differs from header to header.
#[derive(Clone, Debug, PartialEq, Eq)]
pub struct Header {
    /// The name, at most ten bytes.
    pub name: Vec<u8>,
    /// The number given at format.
    pub number: u16,
    /// The update count.
    pub updates: u32,
    /// The free word.
    pub free: usize,
    /// The good word.
    pub good: usize,
    /// The directory's length in bytes.
    pub directory_len: usize,
}

impl Header {
    /// The header's bytes: with the name filled with spaces, the number, and
    /// FF after the tables (§6.2).
    pub fn bytes(&self) -> [u8; HEADER_LEN] {
        let mut header = [0xFF; HEADER_LEN];
        header[0..4].copy_from_slice(&SIGNATURE);
        header[4..4 + DISK_NAME_LEN].fill(b' ');
        header[4..4 + self.name.len()].copy_from_slice(&self.name);
        header[14..16].copy_from_slice(&self.number.to_be_bytes());
        header[UPDATES..UPDATES + 4].copy_from_slice(&self.updates.to_be_bytes());
        set_word(&mut header, FREE, self.free);
        set_word(&mut header, GOOD, self.good);
        for (offset, word) in FIXED_WORDS {
            set_word(&mut header, offset, word);
        }
        set_word(&mut header, DIRECTORY_LEN, self.directory_len / BLOCK_LEN);
        set_word(
            &mut header,
            DIRECTORY_LEN + 2,
            self.directory_len % BLOCK_LEN,
        );
        set_word(&mut header, OFFSET_FIELD, TRACK_OFFSET_WORD);
        for (offset, table) in tables() {
            header[offset..offset + table.len()].copy_from_slice(&table);
        }
        header
    }
}
