//! What accepted calls write, byte by byte, and which slots and blocks they
//! take.

use super::answer::{add, list, read, remove};
use super::build::{entry, fresh, peek, record, record_of, three_files, word, FREE};

/// Adds a file that must be accepted.
fn add_file(image: &mut [u8], name: &[u8], data: &[u8]) {
    assert_eq!(add(image, name, 0x0102_0304, data), [0; 4]);
}

/// An entry as written (§6.13), and a file (§6.16).
#[test]
fn add_writes_entry_file_and_header() {
    let mut image = fresh();
    add_file(&mut image, b"name", &[7; 1473]);
    let mut written = entry(1537, 4, b"name");
    written[52..56].copy_from_slice(&[1, 2, 3, 4]);
    assert_eq!(peek(&image, 1, 64, 64), written);
    assert_eq!(peek(&image, 2, 0, 64), written);
    assert_eq!(peek(&image, 2, 64, 1472), [7; 1472]);
    assert_eq!(peek(&image, 3, 0, 1), [7]);
    assert_eq!(peek(&image, 3, 1, 1535), [0; 1535]);
    assert_eq!(record_of(&image, 2), record(1, 0));
    assert_eq!(record_of(&image, 3), record(1, 1));
    assert_eq!(peek(&image, 0, 16, 4), [0, 0, 0, 1]);
    assert_eq!(
        (word(&image, 20), word(&image, 34), word(&image, 36)),
        (1428, 0, 128)
    );
}

/// A remove leaves zeros (§9.8), and the directory keeps its length (§8.13).
#[test]
fn remove_undoes_add_but_for_counts() {
    let mut image = fresh();
    let mut expected = image.clone();
    add_file(&mut image, b"name", &[7; 10_000]);
    assert_eq!(remove(&mut image, b"name"), [0; 4]);
    expected[19] = 2;
    expected[37] = 128;
    assert!(image == expected);
}

/// Which slot (§8.9) and which blocks (§8.11) an add takes.
#[test]
fn lowest_vacant_slot_and_lowest_free_blocks() {
    let mut image = three_files();
    // `f2` leaves slot 2 and blocks 3 and 4; the next file takes blocks
    // 3, 4 and 9.
    assert_eq!(remove(&mut image, b"f2"), [0; 4]);
    add_file(&mut image, b"g", &[8; 4000]);
    for (block, sequence) in [(3, 0), (4, 1), (9, 2)] {
        assert_eq!(record_of(&image, block), record(2, sequence));
    }
    assert_eq!(record_of(&image, 10), FREE);
    assert_eq!(word(&image, 36), 4 * 64);
    let (reply, out) = read(&image, b"g", &[0; 4000]);
    assert_eq!((reply, out), ([0, 4000, 0, 0], vec![8; 4000]));
}

/// A list is in the order of the slots (§8.6).
#[test]
fn list_is_in_slot_order() {
    let mut image = three_files();
    assert_eq!(remove(&mut image, b"f1"), [0; 4]);
    add_file(&mut image, b"z", &[]);
    let (reply, out) = list(&image, &[0; 192]);
    assert_eq!(reply, [0, 192, 0, 0]);
    let names: Vec<u8> = out.chunks(64).map(|slot| slot[16]).collect();
    assert_eq!(names, b"zff");
}

/// The directory takes the lowest free block, before the file does (§8.10).
#[test]
fn directory_block_is_taken_before_the_files_blocks() {
    let mut image = fresh();
    for index in 0..23u8 {
        add_file(&mut image, &[index], &[]);
    }
    assert_eq!((word(&image, 34), word(&image, 36)), (1, 0));
    assert_eq!(remove(&mut image, &[4]), [0; 4]);
    add_file(&mut image, b"again", &[]);
    assert_eq!((word(&image, 34), word(&image, 36)), (1, 0));
    add_file(&mut image, b"next", &[1; 1500]);
    assert_eq!((word(&image, 34), word(&image, 36)), (1, 64));
    assert_eq!(record_of(&image, 25), record(0, 1));
    assert_eq!(record_of(&image, 26), record(24, 0));
    assert_eq!(record_of(&image, 27), record(24, 1));
}
