//! A directory entry, which is also what a file begins with.

use super::{long_at, set_long, set_word, word_at};

/// Bytes of a directory slot (§6.11), and of the entry at a file's start, which
/// a read passes over (§6.16).
pub const SLOT_LEN: usize = 64;

/// Most bytes of a file name (§6.15).
pub const FILE_NAME_LEN: usize = 36;

/// A directory entry, as far as it has a meaning here (§6.13).
#[derive(Clone, Copy, Debug, PartialEq, Eq)]
pub struct Entry {
    /// Bytes of the file, 64 more than its data.
    pub len: u32,
    /// Bytes of the name.
    pub name_len: u16,
    /// Room for the name, zero after it when written.
    pub name_field: [u8; FILE_NAME_LEN],
    /// The date.
    pub date: u32,
}

impl Entry {
    /// The entry of a file; the name has at most 36 bytes and the data are
    /// shorter than 2^32 - 64.
    pub fn new(name: &[u8], date: u32, data_len: usize) -> Entry {
        let mut name_field = [0; FILE_NAME_LEN];
        name_field[..name.len()].copy_from_slice(name);
        Entry {
            len: (SLOT_LEN + data_len) as u32,
            name_len: name.len() as u16,
            name_field,
            date,
        }
    }

    /// The entry in a slot (§6.13).
    pub fn read(slot: &[u8]) -> Entry {
        let mut name_field = [0; FILE_NAME_LEN];
        name_field.copy_from_slice(&slot[16..16 + FILE_NAME_LEN]);
        Entry {
            len: long_at(slot, 0),
            name_len: word_at(slot, 14) as u16,
            name_field,
            date: long_at(slot, 52),
        }
    }

    /// Its bytes, those without a meaning zero (§6.13).
    pub fn bytes(&self) -> [u8; SLOT_LEN] {
        let mut slot = [0; SLOT_LEN];
        set_long(&mut slot, 0, self.len);
        set_word(&mut slot, 14, self.name_len.into());
        slot[16..16 + FILE_NAME_LEN].copy_from_slice(&self.name_field);
        set_long(&mut slot, 52, self.date);
        slot
    }

    /// The name, if its length is 1 to 36 (§7.21).
    pub fn name(&self) -> Option<&[u8]> {
        let len = usize::from(self.name_len);
        is_file_name_len(len).then(|| &self.name_field[..len])
    }
}

/// Whether a file name may have this many bytes (§6.15).
pub fn is_file_name_len(len: usize) -> bool {
    (1..=FILE_NAME_LEN).contains(&len)
}
