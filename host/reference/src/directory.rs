//! The directory's slots. Slot numbers are file numbers; slot 0 belongs to the
//! directory itself.

use crate::disk::Disk;
use crate::geometry::BLOCK_LEN;
use crate::layout::entry::SLOT_LEN;
use crate::layout::record::Record;

/// Slots in a block (§6.11).
pub const SLOTS_PER_BLOCK: usize = BLOCK_LEN / SLOT_LEN;

/// The blocks of a file by sequence number, lowest first (§6.10).
pub fn file_blocks(records: &[Record], wanted: usize) -> Vec<usize> {
    let mut blocks = Vec::new();
    for (block, record) in records.iter().enumerate() {
        match *record {
            Record::File { file, sequence } if file == wanted => blocks.push((sequence, block)),
            _ => (),
        }
    }
    blocks.sort();
    blocks.into_iter().map(|(_, block)| block).collect()
}

/// The bytes of all slots, from the directory's blocks in order (§6.11).
pub fn all_slots(disk: &Disk, blocks: &[usize], directory_len: usize) -> Vec<[u8; SLOT_LEN]> {
    let mut slots = Vec::new();
    for number in 0..directory_len / SLOT_LEN {
        let block = disk.block(blocks[number / SLOTS_PER_BLOCK]);
        let start = SLOT_LEN * (number % SLOTS_PER_BLOCK);
        let mut slot = [0; SLOT_LEN];
        slot.copy_from_slice(&block[start..start + SLOT_LEN]);
        slots.push(slot);
    }
    slots
}

/// Whether the slot with this number is held by a file: not the directory's
/// own, and not all zero (§6.12).
pub fn is_held(number: usize, slot: &[u8]) -> bool {
    number != 0 && slot.iter().any(|&byte| byte != 0)
}
