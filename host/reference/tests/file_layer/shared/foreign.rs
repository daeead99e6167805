//! Disks as other programs may leave them: what is not judged, and that it
//! stays as it is.

use super::all_calls::all_calls;
use super::answer::{add, check, list, read, remove};
use super::build::{
    count_free, entry, fresh, long_directory, patch, peek, record, record_of, scattered,
    set_record, set_word, three_files, word, FREE,
};
use support::noise::noise;

/// A list has the 64 bytes unchanged (§8.6).
#[test]
fn list_copies_slots_as_they_stand() {
    let mut image = three_files();
    let mut slot = peek(&image, 1, 2 * 64, 64);
    for offset in [4, 5, 13, 18, 51, 52, 56, 63] {
        slot[offset] = 0x77;
    }
    patch(&mut image, 1, 2 * 64, &slot);
    let (reply, out) = list(&image, &[0; 200]);
    assert_eq!(reply, [0, 192, 0, 0]);
    assert_eq!(out[64..128], slot);
}

/// A read begins at byte 64 of the file (§8.7 §6.16).
#[test]
fn files_first_bytes_need_not_repeat_the_entry() {
    let mut image = three_files();
    patch(&mut image, 3, 0, &[0x99; 64]);
    let (reply, out) = read(&image, b"f2", &[0; 1500]);
    assert_eq!(reply, [0, 1500, 0, 0]);
    assert_eq!(out, [b'2'; 1500]);
}

/// Slot 0 is not judged, listed, found or taken (§6.12).
#[test]
fn slot_0_is_nobodys() {
    let me = entry(64, 2, b"me");
    let entries = peek(&three_files(), 1, 64, 192);
    for own in [[0; 64], entry(700, 2, b"f1"), [0xFF; 64], me] {
        let mut image = three_files();
        patch(&mut image, 1, 0, &own);
        assert_eq!(all_calls(&image, b"me"), [0; 4]);
        assert_eq!(list(&image, &[0; 192]), ([0, 192, 0, 0], entries.clone()));
        assert_eq!(read(&image, b"me", &[]).0, [14, 0, 0, 0]);
        // The slot at the end is taken, even where slot 0 is zero.
        assert_eq!(add(&mut image, b"me", 0, &[]), [0; 4]);
        assert_eq!(peek(&image, 1, 0, 64), own);
        assert_eq!(peek(&image, 1, 4 * 64, 64), me);
    }
}

/// Bytes past the directory's end may be anything (§7.23).
#[test]
fn bytes_past_the_directorys_end_are_not_read() {
    let mut image = three_files();
    patch(&mut image, 1, 4 * 64, &[0x66; 1536 - 4 * 64]);
    assert_eq!(all_calls(&image, b"f3"), [0; 4]);
    assert_eq!(add(&mut image, b"f4", 0, &[]), [0; 4]);
    assert_eq!(list(&image, &[0; 300]).0, [0, 256, 0, 0]);
    // Only the new slot is written.
    assert_eq!(peek(&image, 1, 5 * 64, 64), [0x66; 64]);
}

/// Unused and free bytes may be anything (§7.23).
#[test]
fn bytes_that_are_not_judged() {
    for seed in 0..4 {
        let mut image = three_files();
        patch(&mut image, 0, 4, &noise(seed, 16));
        patch(&mut image, 0, 76, &noise(seed, 20));
        // Free blocks, the unused ends of files, and slot 0.
        for block in 9..480 {
            patch(&mut image, block, 0, &[seed as u8 + 1; 1536]);
        }
        patch(&mut image, 8, 1000, &[0x77; 536]);
        patch(&mut image, 1, 0, &noise(seed, 64));
        assert_eq!(all_calls(&image, b"f3"), [0; 4]);
    }
}

/// A file's blocks are in the order of their sequences (§6.10). Which of several
/// blocks of one sequence is read no call shows: such a disk is refused with 10.
#[test]
fn blocks_are_followed_by_sequence() {
    let image = scattered();
    assert_eq!(all_calls(&image, b"b"), [0; 4]);
    let entries = [entry(64, 1, b"a"), entry(3064, 1, b"b")].concat();
    assert_eq!(list(&image, &[0; 128]), ([0, 128, 0, 0], entries));
    let (reply, out) = read(&image, b"b", &[0; 3000]);
    assert_eq!(reply, [0, 3000, 0, 0]);
    assert_eq!(out, [[1; 1472].as_slice(), &[2; 1528]].concat());
}

/// A remove changes no other byte (§8.13).
#[test]
fn remove_changes_only_what_it_must() {
    let mut image = scattered();
    patch(&mut image, 50, 0, &[0x44; 1536]);
    let mut expected = image.clone();
    for block in [30, 31] {
        patch(&mut expected, block, 0, &[0; 1536]);
        set_record(&mut expected, block, FREE);
    }
    patch(&mut expected, 20, 0, &[0; 64]);
    set_word(&mut expected, 18, 1);
    set_word(&mut expected, 20, word(&image, 20) + 6);
    assert_eq!(remove(&mut image, b"b"), [0; 4]);
    assert!(image == expected);
}

/// An add changes no other byte (§8.12).
#[test]
fn add_changes_only_what_it_must() {
    let mut image = scattered();
    // Free blocks with old bytes; block 1 and 2 are taken, 3 is not.
    for block in [1, 2, 3] {
        patch(&mut image, block, 0, &[0x44; 1536]);
    }
    patch(&mut image, 300, 0, &[0x55; 64]);
    let mut expected = image.clone();
    let new = entry(64 + 1500, 3, b"new");
    patch(&mut expected, 300, 2 * 64, &new);
    set_record(&mut expected, 1, record(2, 0));
    set_record(&mut expected, 2, record(2, 1));
    patch(&mut expected, 1, 0, &[&new[..], &[9; 1472]].concat());
    patch(&mut expected, 2, 0, &[&[9; 28][..], &[0; 1508]].concat());
    set_word(&mut expected, 18, 1);
    set_word(&mut expected, 20, word(&image, 20) - 6);
    assert_eq!(add(&mut image, b"new", 0, &[9; 1500]), [0; 4]);
    assert!(image == expected);
}

#[test]
fn calls_on_a_scattered_disk() {
    let mut image = scattered();
    for block in [1, 2, 3, 50, 400] {
        patch(&mut image, block, 0, &[0x44; 1536]);
    }
    patch(&mut image, 300, 0, &[0x55; 64]);
    for (index, len) in [1500, 0, 20_000, 1473, 300].into_iter().enumerate() {
        let name = [b'k' + index as u8];
        assert_eq!(add(&mut image, &name, 9, &noise(7, len)), [0; 4]);
    }
    for name in [b"b", b"m", b"a", b"k"] {
        assert_eq!(remove(&mut image, name), [0; 4]);
    }
    assert_eq!(check(&image), [0; 4]);
}

/// A new block of the directory is zero but for the slot (§8.10).
#[test]
fn new_directory_block_is_zero_but_for_its_slot() {
    // A directory of one whole block, all of whose slots are held.
    let mut image = fresh();
    for slot in 1..24 {
        let name = [b'a' + slot as u8];
        patch(&mut image, 1, 64 * slot, &entry(64, 1, &name));
        set_record(&mut image, 400 + slot, record(slot, 0));
    }
    set_word(&mut image, 34, 1);
    set_word(&mut image, 36, 0);
    count_free(&mut image);
    for block in [2, 3] {
        patch(&mut image, block, 0, &[0x44; 1536]);
    }
    assert_eq!(add(&mut image, b"new", 0, &[]), [0; 4]);
    let slot_and_zeros = [&entry(64, 3, b"new")[..], &[0; 1472]].concat();
    assert_eq!(peek(&image, 2, 0, 1536), slot_and_zeros);
    assert_eq!(peek(&image, 3, 0, 1536), slot_and_zeros);
    assert_eq!(record_of(&image, 2), record(0, 1));
    assert_eq!(record_of(&image, 3), record(24, 0));
    assert_eq!((word(&image, 34), word(&image, 36)), (1, 64));
}

/// 0 follows the highest update count (§6.3).
#[test]
fn update_count_wraps() {
    for (before, after) in [
        ([0, 0, 0, 0xFF], [0, 0, 1, 0]),
        ([0xFF; 4], [0; 4]),
        ([0x7F, 0xFF, 0xFF, 0xFF], [0x80, 0, 0, 0]),
        ([0, 0xFF, 0xFF, 0xFF], [1, 0, 0, 0]),
    ] {
        let mut image = three_files();
        patch(&mut image, 0, 16, &before);
        let mut other = image.clone();
        assert_eq!(add(&mut image, b"f4", 0, &[]), [0; 4]);
        assert_eq!(peek(&image, 0, 16, 4), after);
        assert_eq!(remove(&mut other, b"f1"), [0; 4]);
        assert_eq!(peek(&other, 0, 16, 4), after);
    }
}

#[test]
fn long_directories_of_vacant_slots() {
    // Their ends lie about slot 3968, the first that no record can bear; the
    // lowest vacant slot is taken all the same.
    for end in [3967, 3968, 3969, 3984] {
        let mut image = long_directory(166);
        set_word(&mut image, 34, end / 24);
        set_word(&mut image, 36, 64 * (end % 24));
        assert_eq!(all_calls(&image, b"x"), [0; 4], "end at slot {end}");
        assert_eq!(add(&mut image, b"x", 0, b"data"), [0; 4]);
        assert_eq!(check(&image), [0; 4]);
    }
}
