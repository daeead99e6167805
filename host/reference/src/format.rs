//! The call `format`, without bad blocks and with a list of them.

use crate::disk::{judge_image_len, Disk};
use crate::geometry::BLOCKS;
use crate::layout::entry::SLOT_LEN;
use crate::layout::header::{Header, DISK_NAME_LEN, HEADER_LEN};
use crate::layout::record::Record;
use crate::map::{free_sectors, good_sectors, set_record};
use crate::reply::{Refusal, Reply};

/// Blocks below this have header and map, and the directory, so that they are
/// in no list of bad blocks (§7.12).
const FIRST_FOR_FILES: u16 = 2;

/// Writes an empty disk without bad blocks over the image (§8.4).
pub fn format(image: &mut [u8], name: &[u8], number: u16) -> Reply {
    format_bad(image, name, number, &[])
}

/// Writes an empty disk over the image, whose blocks in the list are bad (§8.4).
/// A disk name may be empty.
pub fn format_bad(image: &mut [u8], name: &[u8], number: u16, bad: &[u16]) -> Reply {
    match judge(image, name, bad) {
        Ok(()) => {
            fresh_disk(name, number, bad).write_to(image);
            Reply::DONE
        }
        Err(refusal) => refusal.reply(),
    }
}

/// Refusals 1 (§7.1) and 12 (§7.12).
fn judge(image: &[u8], name: &[u8], bad: &[u16]) -> Result<(), Refusal> {
    judge_image_len(image)?;
    let may_be_bad = |block: &u16| (FIRST_FOR_FILES..BLOCKS as u16).contains(block);
    if name.len() > DISK_NAME_LEN || !bad.iter().all(may_be_bad) {
        return Err(Refusal::Argument);
    }
    Ok(())
}

/// The records of an empty disk: block 1 is the directory's (§8.4). A block may
/// be in the list more than once.
fn fresh_records(bad: &[u16]) -> Vec<Record> {
    let mut records = vec![Record::Free; BLOCKS];
    records[0] = Record::System;
    records[1] = Record::File {
        file: 0,
        sequence: 0,
    };
    for &block in bad {
        records[usize::from(block)] = Record::Bad;
    }
    records
}

/// An empty disk: header and map, and zero in all other bytes (§8.4).
fn fresh_disk(name: &[u8], number: u16, bad: &[u16]) -> Disk {
    let records = fresh_records(bad);
    let header = Header {
        name: name.to_vec(),
        number,
        updates: 0,
        free: free_sectors(&records),
        good: good_sectors(&records),
        directory_len: SLOT_LEN,
    };
    let mut disk = Disk::zero();
    let block_0 = disk.block_mut(0);
    block_0[..HEADER_LEN].copy_from_slice(&header.bytes());
    for (block, record) in records.iter().enumerate() {
        set_record(block_0, block, *record);
    }
    disk
}
