//! Judging the disk header.

use crate::geometry::BLOCK_LEN;
use crate::layout::entry::SLOT_LEN;
use crate::layout::header::{
    tables, DIRECTORY_LEN, FIXED_WORDS, OFFSET_FIELD, SIGNATURE, TRACK_OFFSET_WORD,
};
use crate::layout::word_at;
use crate::reply::Refusal;

/// The directory's length in bytes (§6.6).
pub fn directory_len(block_0: &[u8]) -> usize {
    BLOCK_LEN * word_at(block_0, DIRECTORY_LEN) + word_at(block_0, DIRECTORY_LEN + 2)
}

/// Judges the letters (§6.1), the fixed words (§6.5), the directory's length
/// (§6.6) and the track offset with the tables (§6.7), in order; refusal 8 at
/// the first wrong one (§7.8).
///
/// Name, number and the bytes after the tables (§6.2) and the update count
/// (§6.3) may be anything; the free word (§6.4) and the good word (§6.18) are
/// judged with the map.
pub fn judge_disk_header(block_0: &[u8]) -> Result<(), Refusal> {
    let mut fields = vec![(0, block_0[0..4] == SIGNATURE)];
    for (offset, word) in FIXED_WORDS {
        fields.push((offset, word_at(block_0, offset) == word));
    }
    fields.push((DIRECTORY_LEN, is_directory_len_good(block_0)));
    fields.push((
        OFFSET_FIELD,
        word_at(block_0, OFFSET_FIELD) == TRACK_OFFSET_WORD,
    ));
    for (offset, table) in tables() {
        fields.push((offset, block_0[offset..offset + table.len()] == table));
    }
    for (offset, good) in fields {
        if !good {
            return Err(Refusal::DiskHeader(offset));
        }
    }
    Ok(())
}

/// At least one whole slot, only whole slots, and less than a block over (§6.6).
fn is_directory_len_good(block_0: &[u8]) -> bool {
    let len = directory_len(block_0);
    let over = word_at(block_0, DIRECTORY_LEN + 2);
    len >= SLOT_LEN && len.is_multiple_of(SLOT_LEN) && over < BLOCK_LEN
}
