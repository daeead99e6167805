//! Room beside bad blocks, on an image and in the model (§9.7).

use super::super::answer::{list, read};
use super::super::build::{peek, record, record_of, word, BAD};
use super::super::disk::Disk;
use support::noise::{noise, Generator};

/// A disk with these bad blocks, over old bytes.
fn with_bad(bad: impl IntoIterator<Item = u16>) -> Disk {
    let bad: Vec<u16> = bad.into_iter().collect();
    Disk::formatted_bad(b"STOCK", 3, 11, &bad)
}

/// So many of the blocks from 2 on, by chance.
fn some_blocks(count: usize, seed: u32) -> Vec<u16> {
    let mut generator = Generator::new(seed);
    let mut blocks: Vec<u16> = (2..480).collect();
    for taken in 0..count {
        let other = taken + generator.below(blocks.len() - taken);
        blocks.swap(taken, other);
    }
    blocks.truncate(count);
    blocks
}

/// Asserts that bad blocks are as the format left them: records, bytes and the
/// good word.
fn assert_bad_stay(disk: &Disk, bad: &[u16]) {
    for &block in bad {
        assert_eq!(record_of(&disk.image, block.into()), BAD, "block {block}");
        assert_eq!(peek(&disk.image, block.into(), 0, 1536), [0; 1536]);
    }
    assert_eq!(word(&disk.image, 22), 1440 - 3 * bad.len());
}

fn name(index: usize) -> Vec<u8> {
    format!("file{index}").into_bytes()
}

/// A file takes the lowest blocks that are free (§8.11), and so passes over bad
/// ones (§6.9).
#[test]
fn files_around_bad_blocks() {
    let bad = [3, 5, 6, 10];
    let mut disk = with_bad(bad);
    let data = noise(1, 5 * 1536 - 64);
    assert_eq!(disk.add(b"long", &data), [0; 4]);
    for (sequence, block) in [2, 4, 7, 8, 9].into_iter().enumerate() {
        assert_eq!(record_of(&disk.image, block), record(1, sequence));
    }
    assert_eq!(disk.add(b"next", &[]), [0; 4]);
    assert_eq!(record_of(&disk.image, 11), record(2, 0));
    assert_eq!(read(&disk.image, b"long", &vec![0; data.len()]).1, data);
    assert_eq!(disk.free(), 3 * (478 - 4 - 6));
    disk.assert_is_the_models();
    assert_bad_stay(&disk, &bad);
    // A remove frees the file's blocks and no other (§8.13).
    assert_eq!(disk.remove(b"long"), [0; 4]);
    assert_eq!(disk.free(), 3 * (478 - 4 - 1));
    disk.assert_is_the_models();
    assert_bad_stay(&disk, &bad);
}

/// The directory's new block is the lowest that is free, not a bad one (§8.10).
#[test]
fn directory_grows_beside_bad_blocks() {
    let bad: Vec<u16> = (2..11).chain([34, 36]).collect();
    let mut disk = with_bad(bad.clone());
    for index in 0..23 {
        assert_eq!(disk.add(&name(index), &[]), [0; 4]);
        assert_eq!(record_of(&disk.image, 11 + index), record(1 + index, 0));
    }
    assert_eq!(disk.add(&name(23), &[7; 1473]), [0; 4]);
    for (block, bytes) in [
        (34, BAD),
        (35, record(0, 1)),
        (36, BAD),
        (37, record(24, 0)),
        (38, record(24, 1)),
    ] {
        assert_eq!(record_of(&disk.image, block), bytes, "block {block}");
    }
    assert_eq!(disk.slots(), 25);
    assert_eq!(disk.free(), 3 * (479 - 11 - 2 - 25));
    disk.assert_is_the_models();
    assert_bad_stay(&disk, &bad);
}

/// Where all blocks from 2 on are bad no file fits (§7.15).
#[test]
fn no_room_at_all() {
    let mut disk = with_bad(2..480);
    assert_eq!((disk.free(), word(&disk.image, 22)), (0, 6));
    assert_eq!(disk.add(b"file", &[]), [15, 0, 0, 0]);
    assert_eq!(disk.add(b"file", &[1; 5000]), [15, 0, 0, 0]);
    assert_eq!(disk.remove(b"file"), [14, 0, 0, 0]);
    assert_eq!(list(&disk.image, &[]), ([0; 4], vec![]));
    disk.assert_is_the_models();
    assert_eq!(disk.slots(), 1);
}

/// For every B a file fits that takes all other blocks, and none that is a byte
/// longer: 15 is given exactly where B + D + S would exceed 479 (§9.7).
#[test]
fn one_file_beside_every_count_of_bad_blocks() {
    for count in 0..478 {
        let bad = some_blocks(count, 70 + count as u32);
        let mut disk = with_bad(bad.clone());
        let most = (478 - count) * 1536 - 64;
        let data = vec![0x3D; most + 1];
        assert_eq!(disk.add(b"a", &data), [15, 0, 0, 0], "{count} bad");
        assert_eq!(disk.add(b"a", &data[..most]), [0; 4], "{count} bad");
        assert_eq!(disk.free(), 0);
        assert_eq!(disk.add(b"b", &[]), [15, 0, 0, 0], "{count} bad");
        if count % 53 == 0 || count > 470 {
            disk.assert_is_the_models();
            assert_bad_stay(&disk, &bad);
        }
    }
}

/// How many empty files fit beside so many bad blocks, and which free word they
/// leave: with every 24th the directory takes a block too (§9.7).
#[test]
fn empty_files_beside_bad_blocks() {
    for (count, files, left) in [
        (0, 459, 0),
        (1, 458, 0),
        (19, 441, 0),
        (229, 239, 3),
        (230, 239, 0),
        (429, 47, 3),
        (452, 25, 0),
        (453, 24, 0),
        (454, 23, 3),
        (455, 23, 0),
        (456, 22, 0),
        (477, 1, 0),
        (478, 0, 0),
    ] {
        let bad = some_blocks(count, 1000 + count as u32);
        let mut disk = with_bad(bad.clone());
        for index in 0..files {
            assert_eq!(disk.add(&name(index), &[]), [0; 4], "{count} bad");
        }
        assert_eq!(disk.free(), left, "{count} bad");
        assert_eq!(disk.add(b"next", &[]), [15, 0, 0, 0], "{count} bad");
        disk.assert_is_the_models();
        assert_bad_stay(&disk, &bad);
    }
}

/// The directory keeps its blocks beside bad ones: P counts (§9.6 §9.7).
#[test]
fn room_after_removes() {
    let bad = some_blocks(440, 5);
    let mut disk = with_bad(bad.clone());
    for index in 0..24 {
        assert_eq!(disk.add(&name(index), &[]), [0; 4]);
    }
    assert_eq!(disk.free(), 3 * (479 - 440 - 2 - 24));
    for index in 0..24 {
        assert_eq!(disk.remove(&name(index)), [0; 4]);
        assert_bad_stay(&disk, &bad);
    }
    assert_eq!(disk.free(), 3 * (479 - 440 - 2));
    let most = 37 * 1536 - 64;
    assert_eq!(disk.add(b"all", &vec![5; most + 1]), [15, 0, 0, 0]);
    assert_eq!(disk.add(b"all", &vec![5; most]), [0; 4]);
    assert_eq!(disk.free(), 0);
    disk.assert_is_the_models();
    assert_bad_stay(&disk, &bad);
}
