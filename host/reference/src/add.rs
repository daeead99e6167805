//! The call `add`.

use crate::directory::{is_held, SLOTS_PER_BLOCK};
use crate::geometry::BLOCK_LEN;
use crate::layout::entry::{Entry, SLOT_LEN};
use crate::layout::header::DIRECTORY_LEN;
use crate::layout::record::Record;
use crate::layout::set_word;
use crate::reply::{Refusal, Reply};
use crate::volume::{judge_file_name, Volume};

/// Adds a file (§8.9). A refusal changes nothing (§7.19).
pub fn add(image: &mut [u8], name: &[u8], date: u32, data: &[u8]) -> Reply {
    match with_file(image, name, date, data) {
        Ok(volume) => {
            volume.disk.write_to(image);
            Reply::DONE
        }
        Err(refusal) => refusal.reply(),
    }
}

/// The volume with the file in it, and nothing else changed (§8.12), or the
/// refusal: 12 (§7.12), 13 (§7.13) or 15 (§7.15). A slot at the end whose number
/// is a multiple of 24 needs a block for the directory, before the file's own
/// (§8.10), which are those of its data and 64 bytes more (§6.17).
fn with_file(image: &[u8], name: &[u8], date: u32, data: &[u8]) -> Result<Volume, Refusal> {
    let mut volume = Volume::of_image(image)?;
    judge_file_name(name)?;
    if let Some(slot) = volume.slot_of(name) {
        return Err(Refusal::NamePresent(slot));
    }
    let slot = slot_for_new_file(&volume);
    let is_at_end = slot == volume.slots.len();
    let needs_directory_block = is_at_end && slot.is_multiple_of(SLOTS_PER_BLOCK);
    let file_blocks = (SLOT_LEN + data.len()).div_ceil(BLOCK_LEN);
    let mut free = volume.free_blocks().into_iter();
    if usize::from(needs_directory_block) + file_blocks > free.len() {
        return Err(Refusal::TooFewBlocks);
    }

    let entry = Entry::new(name, date, data.len()).bytes();
    if needs_directory_block {
        volume.put_blocks(&mut free, 0, slot / SLOTS_PER_BLOCK, &[0; BLOCK_LEN]);
    }
    volume.put_blocks(&mut free, slot, 0, &[&entry, data].concat());
    if is_at_end {
        volume.set_directory_len(SLOT_LEN * (slot + 1));
    }
    volume.write_slot(slot, &entry);
    volume.count_update();
    Ok(volume)
}

/// The slot that an add takes: the lowest vacant one, or the one at the end
/// (§8.9). Slot 0 is never vacant (§6.12).
fn slot_for_new_file(volume: &Volume) -> usize {
    let vacant = (1..volume.slots.len()).find(|&slot| !is_held(slot, &volume.slots[slot]));
    vacant.unwrap_or(volume.slots.len())
}

impl Volume {
    /// Gives the next free blocks to a file, from a sequence number on (§8.11),
    /// and fills them with the bytes; the rest of the last one is zero (§6.16).
    fn put_blocks(
        &mut self,
        free: &mut impl Iterator<Item = usize>,
        file: usize,
        first_sequence: usize,
        bytes: &[u8],
    ) {
        for (index, part) in bytes.chunks(BLOCK_LEN).enumerate() {
            let block = free.next().expect("enough free blocks");
            let sequence = first_sequence + index;
            self.set_record(block, Record::File { file, sequence });
            let target = self.disk.block_mut(block);
            target.fill(0);
            target[..part.len()].copy_from_slice(part);
        }
    }

    /// Writes the directory's length, blocks and bytes over (§6.6).
    fn set_directory_len(&mut self, len: usize) {
        let block_0 = self.disk.block_mut(0);
        set_word(block_0, DIRECTORY_LEN, len / BLOCK_LEN);
        set_word(block_0, DIRECTORY_LEN + 2, len % BLOCK_LEN);
    }
}
