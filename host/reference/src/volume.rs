//! A disk that has passed all of the check, with its map and directory.

use crate::directory::{file_blocks, is_held, SLOTS_PER_BLOCK};
use crate::disk::Disk;
use crate::disk_header::{directory_len, judge_disk_header};
use crate::geometry::BLOCKS;
use crate::layout::entry::{is_file_name_len, Entry, SLOT_LEN};
use crate::layout::header::{FREE, UPDATES};
use crate::layout::record::Record;
use crate::layout::{long_at, set_long, set_word};
use crate::map::{free_sectors, judge_free_word, judge_good_word, judge_map, set_record};
use crate::names::lowered;
use crate::reply::Refusal;
use crate::sound::judge_directory;

/// A checked disk.
#[derive(Clone, Debug)]
pub struct Volume {
    /// The disk in block order.
    pub disk: Disk,
    /// The map record of each block.
    pub records: Vec<Record>,
    /// The directory's slots as they were checked, slot 0 first.
    pub slots: Vec<[u8; SLOT_LEN]>,
}

impl Volume {
    /// The volume of an image, judged by 1, 8, 9, 19, 10 and 11 (§8.5), in this
    /// order (§7.18); nothing else of a disk is judged (§7.23).
    pub fn of_image(image: &[u8]) -> Result<Volume, Refusal> {
        let disk = Disk::of_image(image)?;
        let block_0 = disk.block(0);
        judge_disk_header(block_0)?;
        let records = judge_map(block_0)?;
        judge_good_word(block_0, &records)?;
        let slots = judge_directory(&disk, &records, directory_len(block_0))?;
        judge_free_word(block_0, &records)?;
        Ok(Volume {
            disk,
            records,
            slots,
        })
    }

    /// Numbers and bytes of the held slots, in order (§6.12).
    pub fn held_slots(&self) -> impl Iterator<Item = (usize, &[u8; SLOT_LEN])> {
        let numbered = self.slots.iter().enumerate();
        numbered.filter(|(number, slot)| is_held(*number, *slot))
    }

    /// The held slot whose name is equal to this one (§6.14).
    pub fn slot_of(&self, name: &[u8]) -> Option<usize> {
        let wanted = Some(lowered(name));
        self.held_slots()
            .find(|(_, slot)| Entry::read(*slot).name().map(lowered) == wanted)
            .map(|(number, _)| number)
    }

    /// The blocks of a file in sequence (§6.10).
    pub fn blocks_of(&self, file: usize) -> Vec<usize> {
        file_blocks(&self.records, file)
    }

    /// The free blocks, lowest first (§8.11).
    pub fn free_blocks(&self) -> Vec<usize> {
        let is_free = |&block: &usize| self.records[block] == Record::Free;
        (0..BLOCKS).filter(is_free).collect()
    }

    /// The slot of the named file; refusal 12 (§7.12) or 14 (§7.14) if there
    /// is none.
    pub fn named_file(&self, name: &[u8]) -> Result<usize, Refusal> {
        judge_file_name(name)?;
        self.slot_of(name).ok_or(Refusal::NoSuchName)
    }

    /// Sets a map record, here and on the disk.
    pub fn set_record(&mut self, block: usize, record: Record) {
        self.records[block] = record;
        set_record(self.disk.block_mut(0), block, record);
    }

    /// Writes a slot on the disk; the directory has a block for it.
    pub fn write_slot(&mut self, number: usize, slot: &[u8; SLOT_LEN]) {
        let block = self.blocks_of(0)[number / SLOTS_PER_BLOCK];
        let start = SLOT_LEN * (number % SLOTS_PER_BLOCK);
        self.disk.block_mut(block)[start..start + SLOT_LEN].copy_from_slice(slot);
    }

    /// Counts one accepted change (§6.3), and sets the free word (§6.4) by the
    /// records.
    pub fn count_update(&mut self) {
        let free = free_sectors(&self.records);
        let block_0 = self.disk.block_mut(0);
        let updates = long_at(block_0, UPDATES);
        set_long(block_0, UPDATES, updates.wrapping_add(1));
        set_word(block_0, FREE, free);
    }
}

/// Refusal 12 (§7.12) if the file name has not 1 to 36 bytes (§6.15).
pub fn judge_file_name(name: &[u8]) -> Result<(), Refusal> {
    if is_file_name_len(name.len()) {
        Ok(())
    } else {
        Err(Refusal::Argument)
    }
}
