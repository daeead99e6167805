//! Whether the directory is sound.

use crate::directory::{all_slots, file_blocks, is_held};
use crate::disk::Disk;
use crate::geometry::BLOCK_LEN;
use crate::layout::entry::{Entry, SLOT_LEN};
use crate::layout::record::{Record, FILE_NUMBERS};
use crate::names::lowered;
use crate::reply::Refusal;
use std::collections::HashSet;

/// The sequence numbers that the records give each file, by file number,
/// lowest first.
fn sequences_by_file(records: &[Record]) -> Vec<Vec<usize>> {
    let mut sequences = vec![Vec::new(); FILE_NUMBERS];
    for record in records {
        if let Record::File { file, sequence } = *record {
            sequences[file].push(sequence);
        }
    }
    for of_file in &mut sequences {
        of_file.sort();
    }
    sequences
}

/// Whether these are 0 up to the number of blocks less 1, each once (§7.20).
fn are_sequences_of(sequences: &[usize], file_len: usize) -> bool {
    let blocks = file_len.div_ceil(BLOCK_LEN);
    sequences.iter().copied().eq(0..blocks)
}

/// The directory's slots, or refusal 10 with the lowest file number at which
/// the directory is not sound (§7.10); no record may bear the number of a slot
/// that no file holds (§7.22).
///
/// Without the directory's own blocks its slots cannot be read, so file 0 is
/// judged first. A name is noted when its slot is judged; of two slots with
/// equal names the higher is the one at fault.
pub fn judge_directory(
    disk: &Disk,
    records: &[Record],
    directory_len: usize,
) -> Result<Vec<[u8; SLOT_LEN]>, Refusal> {
    let sequences = sequences_by_file(records);
    if !are_sequences_of(&sequences[0], directory_len) {
        return Err(Refusal::Directory(0));
    }
    let slots = all_slots(disk, &file_blocks(records, 0), directory_len);
    let mut names = HashSet::new();
    for file in 1..slots.len().max(FILE_NUMBERS) {
        let own = sequences.get(file).map_or(&[][..], |own| own);
        let sound = match slots.get(file) {
            Some(slot) if is_held(file, slot) => is_file_sound(slot, own, &mut names),
            _ => own.is_empty(),
        };
        if !sound {
            return Err(Refusal::Directory(file));
        }
    }
    Ok(slots)
}

/// Whether a held slot is sound, given the sequences of its file (§7.20) and
/// the names of lower slots, as they are compared (§7.21).
fn is_file_sound(slot: &[u8], sequences: &[usize], names: &mut HashSet<Vec<u8>>) -> bool {
    let entry = Entry::read(slot);
    let len = entry.len as usize;
    let Some(name) = entry.name() else {
        return false;
    };
    len >= SLOT_LEN && are_sequences_of(sequences, len) && names.insert(lowered(name))
}
