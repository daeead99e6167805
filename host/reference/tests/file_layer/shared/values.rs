//! Disks that are full or nearly so, on an image and in the model, by their
//! numbers of files and blocks (§9.7).

use super::disk::Disk;

/// Name of the file with this index.
fn name(index: usize) -> Vec<u8> {
    format!("file{index}").into_bytes()
}

/// Blocks by the length of data (§6.17).
#[test]
fn blocks_by_length_of_data() {
    for (len, blocks) in [
        (0, 1),
        (1, 1),
        (1472, 1),
        (1473, 2),
        (1500, 2),
        (3008, 2),
        (3009, 3),
        (734_144, 478),
    ] {
        let mut disk = Disk::fresh();
        assert_eq!(disk.add(b"file", &vec![0x5A; len]), [0; 4]);
        assert_eq!(disk.free(), 1434 - 3 * blocks, "{len} bytes");
        disk.assert_is_the_models();
    }
}

/// An add that needs more blocks than are free (§7.15).
#[test]
fn data_too_long_for_a_fresh_disk() {
    for len in [734_145, 734_146, 737_280, 2_000_000] {
        let mut disk = Disk::fresh();
        assert_eq!(disk.add(b"file", &vec![0x5A; len]), [15, 0, 0, 0]);
        disk.assert_is_the_models();
    }
}

/// The directory keeps its blocks: P counts (§9.6 §9.7).
#[test]
fn twenty_four_files_and_none() {
    let mut disk = Disk::fresh();
    for index in 0..23 {
        assert_eq!(disk.add(&name(index), &[]), [0; 4]);
    }
    assert_eq!(disk.free(), 1365);
    assert_eq!(disk.add(&name(23), &[]), [0; 4]);
    assert_eq!(disk.free(), 1359);
    for index in 0..24 {
        assert_eq!(disk.remove(&name(index)), [0; 4]);
    }
    assert_eq!(disk.free(), 1431);
    disk.assert_is_the_models();
}

/// The free word falls to 0, and then 15 is given (§9.7).
#[test]
fn full_disk_of_empty_files() {
    let mut disk = Disk::fresh();
    for index in 0..459 {
        assert_eq!(disk.add(&name(index), &[]), [0; 4]);
    }
    assert_eq!(disk.free(), 0);
    disk.assert_is_the_models();
    assert_eq!(disk.add(b"next", &[]), [15, 0, 0, 0]);
    // A removed file makes room for one as long.
    assert_eq!(disk.remove(&name(100)), [0; 4]);
    assert_eq!(disk.add(b"next", &[1; 1473]), [15, 0, 0, 0]);
    assert_eq!(disk.add(b"next", &[1; 1472]), [0; 4]);
    assert_eq!(disk.free(), 0);
    disk.assert_is_the_models();
}

/// The directory's block is counted too (§8.10 §7.15).
#[test]
fn one_free_block_and_the_directory_full() {
    // 23 files fill the directory's block. With one block free the next file
    // lacks one; after a removal it has a slot below the end.
    let mut disk = Disk::fresh();
    for index in 0..22 {
        assert_eq!(disk.add(&name(index), &[]), [0; 4]);
    }
    assert_eq!(disk.add(b"long", &vec![3; 1536 * 455 - 64]), [0; 4]);
    assert_eq!(disk.free(), 3);
    assert_eq!(disk.add(b"next", &[]), [15, 0, 0, 0]);
    assert_eq!(disk.remove(&name(0)), [0; 4]);
    assert_eq!(disk.add(b"next", &[4; 3009]), [15, 0, 0, 0]);
    assert_eq!(disk.add(b"next", &[4; 3008]), [0; 4]);
    assert_eq!(disk.free(), 0);
    disk.assert_is_the_models();
}

#[test]
fn two_free_blocks_and_the_directory_full() {
    let mut disk = Disk::fresh();
    for index in 0..22 {
        assert_eq!(disk.add(&name(index), &[]), [0; 4]);
    }
    assert_eq!(disk.add(b"long", &vec![3; 1536 * 454 - 64]), [0; 4]);
    assert_eq!(disk.free(), 6);
    assert_eq!(disk.add(b"next", &[5; 1473]), [15, 0, 0, 0]);
    assert_eq!(disk.add(b"next", &[5; 1472]), [0; 4]);
    assert_eq!(disk.free(), 0);
    disk.assert_is_the_models();
}
