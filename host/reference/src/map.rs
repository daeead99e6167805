//! The map: a record for each block.

use crate::geometry::{BLOCKS, SECTORS, SECTORS_PER_BLOCK};
use crate::layout::header::{FREE, GOOD, HEADER_LEN};
use crate::layout::record::{Record, RECORD_LEN};
use crate::layout::word_at;
use crate::reply::Refusal;

/// Where the record of a block stands in block 0 (§6.8).
fn record_place(block: usize) -> usize {
    HEADER_LEN + RECORD_LEN * block
}

/// The record of a block, if its bytes are one.
pub fn record_of(block_0: &[u8], block: usize) -> Option<Record> {
    let place = record_place(block);
    Record::read([block_0[place], block_0[place + 1], block_0[place + 2]])
}

/// Sets the record of a block.
pub fn set_record(block_0: &mut [u8], block: usize, record: Record) {
    let place = record_place(block);
    block_0[place..place + RECORD_LEN].copy_from_slice(&record.bytes());
}

/// The records of all blocks; refusal 9 at the first block whose record is
/// none (§7.9), or is system without being that of block 0, or the other way
/// round.
pub fn judge_map(block_0: &[u8]) -> Result<Vec<Record>, Refusal> {
    let mut records = Vec::new();
    for block in 0..BLOCKS {
        match record_of(block_0, block) {
            Some(record) if (record == Record::System) == (block == 0) => records.push(record),
            _ => return Err(Refusal::MapRecord(block)),
        }
    }
    Ok(records)
}

/// Sectors in the blocks with this record.
fn sectors_of(kind: Record, records: &[Record]) -> usize {
    let blocks = records.iter().filter(|&&record| record == kind);
    SECTORS_PER_BLOCK * blocks.count()
}

/// Sectors in the free blocks: the free word (§6.4).
pub fn free_sectors(records: &[Record]) -> usize {
    sectors_of(Record::Free, records)
}

/// Sectors that are not in bad blocks: the good word (§6.18).
pub fn good_sectors(records: &[Record]) -> usize {
    SECTORS - sectors_of(Record::Bad, records)
}

/// The refusal if the header's word at an offset is not this one.
fn judge_word(block_0: &[u8], at: usize, word: usize, refusal: Refusal) -> Result<(), Refusal> {
    if word_at(block_0, at) == word {
        Ok(())
    } else {
        Err(refusal)
    }
}

/// Refusal 19 if the good word does not fit the map (§7.26).
pub fn judge_good_word(block_0: &[u8], records: &[Record]) -> Result<(), Refusal> {
    judge_word(block_0, GOOD, good_sectors(records), Refusal::GoodWord)
}

/// Refusal 11 if the free word does not fit the map (§7.11).
pub fn judge_free_word(block_0: &[u8], records: &[Record]) -> Result<(), Refusal> {
    judge_word(block_0, FREE, free_sectors(records), Refusal::FreeWord)
}
