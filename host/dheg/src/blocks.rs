//! What each block of a disk is, by its map (§6.8, §6.9).

use std::collections::BTreeSet;

use dhegluubin::{place, Refusal, IMAGE_LEN, SECTOR_LEN};

use crate::entries::{self, Entry};

/// Bytes of a block, three sectors (§1.1).
pub const BLOCK_LEN: usize = 3 * SECTOR_LEN;

/// Where the records of the map begin in block 0, and their bytes (§6.8).
const RECORDS: usize = 96;
const RECORD_LEN: usize = 3;

/// Blocks of a disk (§1.1).
pub const COUNT: usize = IMAGE_LEN / BLOCK_LEN;

/// What a block is.
#[derive(Clone, Copy, Debug, PartialEq, Eq)]
pub enum Kind {
    /// The system's: disk header and map.
    Map,
    Directory,
    /// A file's: its index in the files, which are in slot order.
    File(usize),
    Free,
    Bad,
}

/// The blocks of a disk and its files.
#[derive(Clone, Debug, PartialEq, Eq)]
pub struct Blocks {
    /// Of each block.
    pub kinds: Vec<Kind>,
    /// Which part of its file or of the directory a block is, from 0: the
    /// sequence in its record (§6.8). 0 for all other blocks.
    pub parts: Vec<usize>,
    /// In slot order.
    pub files: Vec<Entry>,
}

impl Blocks {
    /// How many blocks are of this kind.
    pub fn count(&self, kind: Kind) -> usize {
        self.kinds.iter().filter(|&&found| found == kind).count()
    }

    /// How many blocks are files'.
    pub fn file_count(&self) -> usize {
        let is_file = |kind: &&Kind| matches!(kind, Kind::File(_));
        self.kinds.iter().filter(is_file).count()
    }
}

/// The blocks of a block image, which is judged first, as by a check (§8.5).
pub fn of(image: &[u8]) -> Result<Blocks, Refusal> {
    let files = entries::of(image)?;
    let map = first_block(image)?;
    let records = map.get(RECORDS..).unwrap_or_default();
    let records: Vec<u32> = records
        .chunks_exact(RECORD_LEN)
        .take(COUNT)
        .map(|record| entries::value(record, 0..RECORD_LEN))
        .collect();
    // Of a sound disk every held slot has a block (§7.20, §7.21), and every
    // number in the map is that of a held slot or of the directory (§7.22). So
    // the different numbers in ascending order are those of the entries, which
    // are in the order of their slots (§8.6).
    let numbers: BTreeSet<u32> = records
        .iter()
        .filter_map(|&record| number(record))
        .collect();
    let slots: Vec<u32> = numbers.into_iter().filter(|&slot| slot != 0).collect();
    Ok(Blocks {
        kinds: records.iter().map(|&record| kind(record, &slots)).collect(),
        parts: records.iter().map(|&record| part(record)).collect(),
        files,
    })
}

/// Block 0, whose sectors are not side by side in the image (§1.5).
fn first_block(image: &[u8]) -> Result<Vec<u8>, Refusal> {
    let mut block = Vec::new();
    for sector in 0..BLOCK_LEN / SECTOR_LEN {
        let start = SECTOR_LEN * place(0, sector)?;
        let bytes = image.iter().skip(start).take(SECTOR_LEN);
        block.extend(bytes);
    }
    Ok(block)
}

/// The file number of a file's record, 0 for the directory (§6.8, §6.9).
fn number(record: u32) -> Option<u32> {
    (record < 0xF8_00_00).then_some(record >> 12)
}

/// The kind of a record (§6.9). A sound disk has no other: reply 9 (§7.9).
fn kind(record: u32, slots: &[u32]) -> Kind {
    match (number(record), record) {
        (Some(0), _) => Kind::Directory,
        (Some(slot), _) => match slots.binary_search(&slot) {
            Ok(file) => Kind::File(file),
            Err(_) => Kind::Free,
        },
        (None, 0xF8_00_00) => Kind::Map,
        (None, 0xFE_FF_FF) => Kind::Bad,
        (None, _) => Kind::Free,
    }
}

/// The sequence of a file's record (§6.8).
fn part(record: u32) -> usize {
    match number(record) {
        Some(_) => usize::try_from(record & 0xFFF).unwrap_or(0),
        None => 0,
    }
}

#[cfg(test)]
mod tests {
    use super::*;
    use dhegluubin::{add, format_bad, remove};

    /// A disk with bad blocks and five files of which two are removed again, so
    /// that slots are vacant and a later file has blocks apart.
    fn disk() -> Vec<u8> {
        let mut image = vec![0xE5; IMAGE_LEN];
        format_bad(&mut image, b"TEST", 1, &[4, 7, 479]).unwrap();
        for (name, length) in [("a", 10), ("b", 1472), ("c", 1473), ("d", 0), ("e", 4000)] {
            add(&mut image, name.as_bytes(), 0, &vec![7; length]).unwrap();
        }
        remove(&mut image, b"a").unwrap();
        remove(&mut image, b"d").unwrap();
        add(&mut image, b"long", 0, &[9; 5000]).unwrap();
        image
    }

    #[test]
    fn kinds_of_a_disk() {
        let blocks = of(&disk()).unwrap();
        let names: Vec<&[u8]> = blocks.files.iter().map(|file| &*file.name).collect();
        assert_eq!(names, [b"long", &b"b"[..], b"c", b"e"]);
        use Kind::*;
        let first = [
            Map,
            Directory,
            File(0),
            File(1),
            Bad,
            File(2),
            File(2),
            Bad,
            File(0),
            File(3),
            File(3),
            File(3),
            File(0),
            File(0),
            Free,
        ];
        assert_eq!(blocks.kinds[..15], first);
        assert_eq!(
            blocks.parts[..15],
            [0, 0, 0, 0, 0, 0, 1, 0, 1, 0, 1, 2, 2, 3, 0]
        );
        assert_eq!(blocks.kinds[479], Bad);
        assert!(blocks.kinds[15..479].iter().all(|&kind| kind == Free));
        assert_eq!(blocks.kinds.len(), COUNT);
    }

    /// Each file has as many blocks as its length takes (§6.17), and every part
    /// once.
    #[test]
    fn blocks_of_files() {
        let mut image = vec![0; IMAGE_LEN];
        format_bad(&mut image, b"MANY", 1, &[20]).unwrap();
        for number in 0..60 {
            let name = format!("file_{number}");
            add(&mut image, name.as_bytes(), 0, &vec![1; 211 * number]).unwrap();
        }
        for number in (0..60).step_by(7) {
            remove(&mut image, format!("file_{number}").as_bytes()).unwrap();
        }
        let blocks = of(&image).unwrap();
        assert_eq!(blocks.files.len(), 51);
        for (index, file) in blocks.files.iter().enumerate() {
            let needed = (64 + file.length as usize).div_ceil(BLOCK_LEN);
            assert_eq!(blocks.count(Kind::File(index)), needed);
            let of_file = |block: &usize| blocks.kinds[*block] == Kind::File(index);
            let mut parts: Vec<usize> = (0..COUNT)
                .filter(of_file)
                .map(|block| blocks.parts[block])
                .collect();
            parts.sort();
            assert!(parts.into_iter().eq(0..needed));
        }
        // 61 slots, 24 in a block (§6.11).
        assert_eq!(blocks.count(Kind::Directory), 3);
        assert_eq!(blocks.count(Kind::Map), 1);
        assert_eq!(blocks.count(Kind::Bad), 1);
        let counted = blocks.file_count() + blocks.count(Kind::Free) + 5;
        assert_eq!(counted, COUNT);
    }

    /// A free record is free whatever its tail is (§6.9).
    #[test]
    fn tails_of_free_records() {
        let mut image = disk();
        // The map's first sector is the image's first (§1.5); record 100.
        image[96 + 300..][..3].copy_from_slice(&[0xFD, 0x10, 0x00]);
        assert_eq!(of(&image).unwrap(), of(&disk()).unwrap());
    }

    #[test]
    fn refused_as_by_a_check() {
        let refusal = of(&[0; 100]).unwrap_err();
        assert_eq!(refusal.number(), 1);
        let mut image = disk();
        image[20] ^= 1;
        assert_eq!(of(&image), Err(Refusal::FreeWord));
    }
}
