//! The image that the model stands for.

use super::{Model, SLOTS_PER_BLOCK};
use crate::field::SECTOR_LEN;
use crate::geometry::{running_at, BLOCKS, BLOCK_LEN, SECTORS};
use crate::layout::entry::SLOT_LEN;
use crate::layout::header::{Header, HEADER_LEN};
use crate::layout::record::Record;

impl Model {
    /// The whole block image (§9.5), sector by sector in image order (§1.6).
    pub fn image(&self) -> Vec<u8> {
        let blocks = self.blocks();
        let mut image = Vec::new();
        for image_sector in 0..SECTORS {
            let running = running_at(image_sector);
            let start = SECTOR_LEN * running;
            image.extend(&blocks[start..start + SECTOR_LEN]);
        }
        image
    }

    /// All blocks one after another: header and map, slots and files (§9.5), and
    /// zero in every other byte (§9.8).
    fn blocks(&self) -> Vec<u8> {
        let mut blocks = vec![0; BLOCK_LEN * BLOCKS];
        blocks[..HEADER_LEN].copy_from_slice(&self.header().bytes());
        let map: Vec<u8> = self.records().into_iter().flat_map(Record::bytes).collect();
        blocks[HEADER_LEN..BLOCK_LEN].copy_from_slice(&map);
        for (slot, file) in self.files() {
            let block = self.directory_blocks[slot / SLOTS_PER_BLOCK];
            let start = BLOCK_LEN * block + SLOT_LEN * (slot % SLOTS_PER_BLOCK);
            blocks[start..start + SLOT_LEN].copy_from_slice(&file.entry());

            let bytes = [&file.entry(), &file.data[..]].concat();
            for (block, part) in file.blocks.iter().zip(bytes.chunks(BLOCK_LEN)) {
                let start = BLOCK_LEN * block;
                blocks[start..start + part.len()].copy_from_slice(part);
            }
        }
        blocks
    }

    /// The header; the directory has slot 0 and these P slots (§9.5). The good
    /// word is 1440 - 3 x B (§6.18).
    fn header(&self) -> Header {
        Header {
            name: self.name.clone(),
            number: self.number,
            updates: self.updates,
            free: self.free_word(),
            good: 1440 - 3 * self.bad_blocks.len(),
            directory_len: SLOT_LEN * (1 + self.slots.len()),
        }
    }

    /// The record of each block (§9.5).
    fn records(&self) -> Vec<Record> {
        let mut records = vec![Record::Free; BLOCKS];
        records[0] = Record::System;
        for &block in &self.bad_blocks {
            records[block] = Record::Bad;
        }
        for (sequence, &block) in self.directory_blocks.iter().enumerate() {
            records[block] = Record::File { file: 0, sequence };
        }
        for (slot, file) in self.files() {
            for (sequence, &block) in file.blocks.iter().enumerate() {
                records[block] = Record::File {
                    file: slot,
                    sequence,
                };
            }
        }
        records
    }
}
