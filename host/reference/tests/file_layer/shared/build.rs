//! Disks for the tests, and changes to them by block and offset.

use reference::geometry::BLOCKS;
use reference::geometry::IMAGE_LEN;
use reference::{add, format_bad, place, Reply};

/// An empty disk without bad blocks.
pub fn fresh() -> Vec<u8> {
    fresh_bad(&[])
}

/// An empty disk on which these blocks are bad.
pub fn fresh_bad(bad: &[u16]) -> Vec<u8> {
    let mut image = vec![0; IMAGE_LEN];
    assert_eq!(format_bad(&mut image, b"DISK", 7, bad), Reply::DONE);
    image
}

/// A disk with files `f1` (0 bytes), `f2` (1,500) and `f3` (5,000). The
/// directory has block 1, the files have 2, then 3 and 4, then 5 to 8.
pub fn three_files() -> Vec<u8> {
    let mut image = fresh();
    for (name, len) in [(b"f1", 0), (b"f2", 1500), (b"f3", 5000)] {
        let reply = add(&mut image, name, 0x0102_0304, &vec![name[1]; len]);
        assert_eq!(reply, Reply::DONE);
    }
    image
}

/// Where a byte of a block stands in the image.
fn at(block: usize, offset: usize) -> usize {
    512 * place(block, offset / 512).first + offset % 512
}

/// Lays bytes over a block.
pub fn patch(image: &mut [u8], block: usize, offset: usize, bytes: &[u8]) {
    for (index, byte) in bytes.iter().enumerate() {
        image[at(block, offset + index)] = *byte;
    }
}

/// Bytes of a block.
pub fn peek(image: &[u8], block: usize, offset: usize, count: usize) -> Vec<u8> {
    (offset..offset + count)
        .map(|offset| image[at(block, offset)])
        .collect()
}

/// A word of the disk header.
pub fn word(image: &[u8], offset: usize) -> usize {
    let bytes = peek(image, 0, offset, 2);
    usize::from(bytes[0]) * 256 + usize::from(bytes[1])
}

/// Sets a word of the disk header.
pub fn set_word(image: &mut [u8], offset: usize, word: usize) {
    patch(image, 0, offset, &(word as u16).to_be_bytes());
}

/// The record of a block that we free.
pub const FREE: [u8; 3] = [0xFD, 0xFF, 0xFF];

/// The record of a bad block.
pub const BAD: [u8; 3] = [0xFE, 0xFF, 0xFF];

/// The bytes of a record of a file.
pub fn record(file: usize, sequence: usize) -> [u8; 3] {
    let bits = (file << 12 | sequence) as u32;
    let [_, first, second, third] = bits.to_be_bytes();
    [first, second, third]
}

/// Sets the map record of a block.
pub fn set_record(image: &mut [u8], block: usize, bytes: [u8; 3]) {
    patch(image, 0, 96 + 3 * block, &bytes);
}

/// The bytes of a map record.
pub fn record_of(image: &[u8], block: usize) -> Vec<u8> {
    peek(image, 0, 96 + 3 * block, 3)
}

/// The records of all blocks.
pub fn records(image: &[u8]) -> Vec<Vec<u8>> {
    (0..BLOCKS).map(|block| record_of(image, block)).collect()
}

/// The blocks that are free, upwards.
pub fn free_blocks(image: &[u8]) -> Vec<usize> {
    let is_free = |block: &usize| record_of(image, *block)[0] == FREE[0];
    (0..BLOCKS).filter(is_free).collect()
}

/// The blocks that are bad, upwards.
pub fn bad_blocks(image: &[u8]) -> Vec<usize> {
    let is_bad = |block: &usize| record_of(image, *block) == BAD;
    (0..BLOCKS).filter(is_bad).collect()
}

/// Sets the free word to what the map says.
pub fn count_free(image: &mut [u8]) {
    set_word(image, 20, 3 * free_blocks(image).len());
}

/// Sets the good word to what the map says.
pub fn count_good(image: &mut [u8]) {
    set_word(image, 22, 1440 - 3 * bad_blocks(image).len());
}

/// Makes a block bad that was free, and sets both words to what the map says.
pub fn mark_bad(image: &mut [u8], block: usize) {
    set_record(image, block, BAD);
    count_free(image);
    count_good(image);
}

/// The bytes of an entry.
pub fn entry(len: u32, name_len: u16, name: &[u8]) -> [u8; 64] {
    let mut bytes = [0; 64];
    bytes[0..4].copy_from_slice(&len.to_be_bytes());
    bytes[14..16].copy_from_slice(&name_len.to_be_bytes());
    bytes[16..16 + name.len()].copy_from_slice(name);
    bytes
}

/// A disk whose directory has the blocks from 1 on, all slots vacant.
pub fn long_directory(blocks: usize) -> Vec<u8> {
    let mut image = fresh();
    for sequence in 0..blocks {
        set_record(&mut image, 1 + sequence, record(0, sequence));
    }
    set_word(&mut image, 34, blocks);
    set_word(&mut image, 36, 0);
    count_free(&mut image);
    image
}

/// A disk as another program may leave it: a file in each slot from 1 on, with
/// these names, whatever they are. Its data are its name; it has block 479 or
/// the highest below that is left.
pub fn named_files(names: &[&[u8]]) -> Vec<u8> {
    let end = names.len() + 1;
    let mut image = long_directory(end.div_ceil(24));
    set_word(&mut image, 34, end / 24);
    set_word(&mut image, 36, 64 * (end % 24));
    for (index, name) in names.iter().enumerate() {
        let (slot, block) = (index + 1, 479 - index);
        let entry = entry(64 + name.len() as u32, name.len() as u16, name);
        patch(&mut image, 1 + slot / 24, 64 * (slot % 24), &entry);
        patch(&mut image, block, 64, name);
        set_record(&mut image, block, record(slot, 0));
    }
    count_free(&mut image);
    image
}

/// A disk whose directory has one block and a file in each of its slots, 1 to
/// 23; the next file takes a block for the directory.
pub fn full_directory() -> Vec<u8> {
    let names: Vec<[u8; 1]> = (0..23).map(|index| [b'a' + index]).collect();
    let names: Vec<&[u8]> = names.iter().map(|name| name.as_slice()).collect();
    named_files(&names)
}

/// A directory of two blocks, 300 before 20, with a file in slots 1 and 24;
/// the file in slot 24 has its blocks in backward order.
pub fn scattered() -> Vec<u8> {
    let mut image = fresh();
    set_record(&mut image, 1, FREE);
    set_record(&mut image, 300, record(0, 0));
    set_record(&mut image, 20, record(0, 1));
    set_word(&mut image, 34, 1);
    set_word(&mut image, 36, 64);
    patch(&mut image, 300, 64, &entry(64, 1, b"a"));
    set_record(&mut image, 479, record(1, 0));
    patch(&mut image, 20, 0, &entry(64 + 3000, 1, b"b"));
    set_record(&mut image, 31, record(24, 0));
    set_record(&mut image, 30, record(24, 1));
    patch(&mut image, 31, 0, &[1; 1536]);
    patch(&mut image, 30, 0, &[2; 1536]);
    count_free(&mut image);
    image
}
