//! How the model gives slots and blocks, and counts them.

use super::{Model, SLOTS_PER_BLOCK};
use crate::geometry::{BLOCKS, BLOCK_LEN};
use crate::layout::entry::SLOT_LEN;

/// Blocks of a file with this many bytes of data (§6.17).
pub fn blocks_for(data_len: usize) -> usize {
    (data_len + SLOT_LEN).div_ceil(BLOCK_LEN)
}

impl Model {
    /// The free word, were P and S these: 3 x (479 - B - D - S), with D = 1 + P / 24
    /// blocks of the directory (§9.7).
    pub(super) fn word(&self, most_present: usize, file_blocks: usize) -> i64 {
        let directory_blocks = 1 + most_present / SLOTS_PER_BLOCK;
        let taken = self.bad_blocks.len() + directory_blocks + file_blocks;
        3 * (479 - taken as i64)
    }

    /// The blocks of all files present, S (§9.7).
    pub(super) fn file_blocks(&self) -> usize {
        self.files()
            .map(|(_, file)| blocks_for(file.data.len()))
            .sum()
    }

    /// The lowest empty slot, else a new one (§8.9); a new slot that begins a
    /// block takes the lowest free block for the directory (§8.10).
    pub(super) fn open_slot(&mut self) -> usize {
        if let Some(index) = self.slots.iter().position(Option::is_none) {
            return index + 1;
        }
        self.slots.push(None);
        let slot = self.slots.len();
        if slot.is_multiple_of(SLOTS_PER_BLOCK) {
            let block = self.lowest_free(1);
            self.directory_blocks.extend(block);
        }
        slot
    }

    /// The lowest free blocks (§8.11): neither block 0, nor the directory's, nor
    /// a file's, nor a bad one.
    pub(super) fn lowest_free(&self, count: usize) -> Vec<usize> {
        let mut is_free = [true; BLOCKS];
        is_free[0] = false;
        let of_files = self.files().flat_map(|(_, file)| &file.blocks);
        let of_directory = self.directory_blocks.iter();
        for &block in of_directory.chain(of_files).chain(&self.bad_blocks) {
            is_free[block] = false;
        }
        let free: Vec<usize> = (0..BLOCKS).filter(|&block| is_free[block]).collect();
        free[..count].to_vec()
    }
}
