//! Refusal 10: each way in which a directory is not sound.

use super::all_calls::all_calls;
use super::answer::check;
use super::build::{
    count_free, entry, long_directory, named_files, patch, record, set_record, set_word,
    three_files, FREE,
};

type Change<'a> = &'a dyn Fn(&mut Vec<u8>);

/// What all calls say of the disk with three files after a change.
fn with(change: impl Fn(&mut Vec<u8>)) -> [usize; 4] {
    let mut image = three_files();
    change(&mut image);
    count_free(&mut image);
    all_calls(&image, b"f3")
}

/// The sequences of a file are each there once (§7.20).
#[test]
fn sequences_of_a_file() {
    let wrong: [Change; 6] = [
        // One missing at the end, at the start, and within.
        &|image| set_record(image, 8, FREE),
        &|image| set_record(image, 5, FREE),
        &|image| set_record(image, 6, FREE),
        // One twice, with and without one missing.
        &|image| set_record(image, 8, record(3, 2)),
        &|image| set_record(image, 9, record(3, 2)),
        // One too many.
        &|image| set_record(image, 9, record(3, 4)),
    ];
    for change in wrong {
        assert_eq!(with(change), [10, 3, 0, 0]);
    }
    for sequence in [4, 5, 255, 256, 479, 480, 4095] {
        let reply = with(|image| set_record(image, 8, record(3, sequence)));
        assert_eq!(reply, [10, 3, 0, 0], "sequence {sequence}");
    }
}

/// Nothing follows from the order of a file's blocks (§6.10).
#[test]
fn order_of_blocks_does_not_matter() {
    let reply = with(|image| {
        for (block, sequence) in [(5, 3), (6, 1), (7, 0), (8, 2)] {
            set_record(image, block, record(3, sequence));
        }
    });
    assert_eq!(reply, [0; 4]);
}

/// A file has the blocks of its length (§6.17 §7.20).
#[test]
fn length_and_blocks() {
    for (len, expected) in [
        (0, [10, 2, 0, 0]),
        (63, [10, 2, 0, 0]),
        (64, [10, 2, 0, 0]),
        (1536, [10, 2, 0, 0]),
        (1537, [0; 4]),
        (3071, [0; 4]),
        (3072, [0; 4]),
        (3073, [10, 2, 0, 0]),
        (0x0001_0601, [10, 2, 0, 0]),
        (0x8000_0000, [10, 2, 0, 0]),
        (0xFFFF_FA00, [10, 2, 0, 0]),
        (u32::MAX, [10, 2, 0, 0]),
    ] {
        let reply = with(|image| patch(image, 1, 2 * 64, &len.to_be_bytes()));
        assert_eq!(reply, expected, "length {len}");
    }
    for (len, expected) in [(63u32, [10, 1, 0, 0]), (64, [0; 4]), (1, [10, 1, 0, 0])] {
        let reply = with(|image| patch(image, 1, 64, &len.to_be_bytes()));
        assert_eq!(reply, expected, "length {len}");
    }
}

/// One byte that is not zero makes a slot held (§6.12).
#[test]
fn slot_that_is_not_all_zero_is_held() {
    for place in 0..64 {
        let reply = with(|image| {
            set_word(image, 36, 5 * 64);
            patch(image, 1, 4 * 64 + place, &[1]);
        });
        assert_eq!(reply, [10, 4, 0, 0], "byte {place}");
    }
}

/// The length of a name is 1 to 36 (§7.21).
#[test]
fn name_lengths() {
    for (name_len, expected) in [
        (0u16, [10, 3, 0, 0]),
        (1, [0; 4]),
        (36, [0; 4]),
        (37, [10, 3, 0, 0]),
        (0x0100, [10, 3, 0, 0]),
        (0x0102, [10, 3, 0, 0]),
        (0x8002, [10, 3, 0, 0]),
        (65_535, [10, 3, 0, 0]),
    ] {
        let reply = with(|image| patch(image, 1, 3 * 64 + 14, &name_len.to_be_bytes()));
        assert_eq!(reply, expected, "{name_len} bytes");
    }
}

/// Of two equal names the higher slot is at fault (§7.21).
#[test]
fn higher_slot_of_two_equal_names_is_at_fault() {
    for (slot, byte, expected) in [
        (3, b"1", [10, 3, 0, 0]),
        (2, b"1", [10, 2, 0, 0]),
        (1, b"3", [10, 3, 0, 0]),
    ] {
        let reply = with(|image| patch(image, 1, slot * 64 + 17, byte));
        assert_eq!(reply, expected);
    }
}

/// Equal names have the same length and the same bytes, where a capital letter
/// counts as its small one (§6.14).
#[test]
fn names_are_compared_by_length_and_bytes() {
    // `f2` becomes `f`, then `F3`, then `f3`; bytes after the name do not matter.
    assert_eq!(with(|image| patch(image, 1, 2 * 64 + 15, &[1])), [0; 4]);
    for name in [b"F3", b"f3"] {
        let reply = with(|image| patch(image, 1, 2 * 64 + 16, name));
        assert_eq!(reply, [10, 3, 0, 0]);
    }
    let reply = with(|image| patch(image, 1, 2 * 64 + 17, b"3xyz"));
    assert_eq!(reply, [10, 3, 0, 0]);
    // `f2` and `f3` with one byte more each, both zero.
    let reply = with(|image| {
        patch(image, 1, 2 * 64 + 15, &[3]);
        patch(image, 1, 3 * 64 + 15, &[3]);
    });
    assert_eq!(reply, [0; 4]);
    // Names of 36 bytes that differ in the last one, in its case, or not at all.
    for (last, expected) in [
        (b"x", [0; 4]),
        (b"X", [0; 4]),
        (b"Y", [10, 3, 0, 0]),
        (b"y", [10, 3, 0, 0]),
    ] {
        let reply = with(|image| {
            for (slot, byte) in [(2, b"y"), (3, last)] {
                patch(image, 1, slot * 64 + 14, &[0, 36]);
                patch(image, 1, slot * 64 + 16, &[b'n'; 35]);
                patch(image, 1, slot * 64 + 16 + 35, byte);
            }
        });
        assert_eq!(reply, expected);
    }
}

/// A disk with both spellings of a name, as another program may leave it, is
/// refused by each call at the higher slot (§7.21 §6.14), and accepted where
/// the names differ in a byte that is no letter.
#[test]
fn both_spellings_on_one_disk() {
    let cases: [(&[&[u8]], [usize; 4]); 7] = [
        (&[b"Reel_one", b"REEL_ONE"], [10, 2, 0, 0]),
        (&[b"REEL_ONE", b"boot", b"Reel_one"], [10, 3, 0, 0]),
        // Two pairs: the lowest slot that is the higher of its pair.
        (&[b"a", b"B", b"b", b"A"], [10, 3, 0, 0]),
        (&[b"a", b"B", b"A", b"b"], [10, 3, 0, 0]),
        (&[b"Reel_one", b"REEL ONE"], [0; 4]),
        (&[b"Reel[one", b"REEL{ONE"], [0; 4]),
        (&[b"Reel_one\xE1", b"REEL_ONE\xC1"], [0; 4]),
    ];
    for (names, expected) in cases {
        let image = named_files(names);
        for name in names.iter().chain(&[&b"none"[..]]) {
            assert_eq!(all_calls(&image, name), expected, "{names:?}");
        }
    }
}

/// The same where the slots stand in different blocks of the directory, with
/// many between them (§7.21 §6.14).
#[test]
fn both_spellings_in_a_long_directory() {
    for (last, expected) in [(b"FILE 1 ", [0; 4]), (b"FILE 0\0", [10, 60, 0, 0])] {
        let mut names: Vec<[u8; 7]> = Vec::new();
        for index in 0..59 {
            names.push([b'f', b'i', b'l', b'e', b' ', b'0', index]);
        }
        names.push(*last);
        let names: Vec<&[u8]> = names.iter().map(|name| &name[..]).collect();
        assert_eq!(all_calls(&named_files(&names), b"file 0\0"), expected);
    }
}

/// No record bears the number of a slot that is not held (§7.22).
#[test]
fn records_of_vacant_slots_and_past_the_end() {
    for file in [4, 5, 23, 24, 100, 479, 480, 0xF7F] {
        let reply = with(|image| {
            set_word(image, 36, 5 * 64);
            set_record(image, 200, record(file, 0));
        });
        assert_eq!(reply, [10, file, 0, 0]);
    }
    let reply = with(|image| patch(image, 1, 2 * 64, &[0; 64]));
    assert_eq!(reply, [10, 2, 0, 0]);
}

/// The directory has the blocks of its length (§7.20).
#[test]
fn sequences_of_the_directory() {
    let wrong: [Change; 5] = [
        &|image| set_record(image, 1, FREE),
        &|image| set_record(image, 1, record(0, 1)),
        &|image| set_record(image, 9, record(0, 0)),
        &|image| set_record(image, 9, record(0, 1)),
        &|image| set_record(image, 1, record(3, 0)),
    ];
    for change in wrong {
        assert_eq!(with(change), [10, 0, 0, 0]);
    }
}

/// 10 names the lowest file number (§7.10).
#[test]
fn lowest_file_number_over_all_conditions() {
    let mut image = three_files();
    set_word(&mut image, 20, 0);
    let faults: [(Change, usize); 6] = [
        (&|image| set_record(image, 300, record(0x500, 0)), 0x500),
        (&|image| set_record(image, 301, record(4, 0)), 4),
        (&|image| patch(image, 1, 3 * 64 + 17, b"1"), 3),
        (&|image| set_record(image, 302, record(2, 9)), 2),
        (&|image| patch(image, 1, 64 + 14, &[0, 0]), 1),
        (&|image| set_record(image, 303, record(0, 7)), 0),
    ];
    for (change, file) in faults {
        change(&mut image);
        assert_eq!(all_calls(&image, b"f1"), [10, file, 0, 0]);
    }
}

/// No record bears 3,968 or more (§7.22).
#[test]
fn slots_that_no_record_can_bear() {
    let image = long_directory(479);
    assert_eq!(all_calls(&image, b"x"), [0; 4]);
    for slot in [11_495, 4097, 4096, 3968, 3967, 1] {
        let mut image = image.clone();
        let held = entry(64, 1, b"x");
        patch(&mut image, 1 + slot / 24, 64 * (slot % 24), &held);
        assert_eq!(all_calls(&image, b"x"), [10, slot, 0, 0]);
    }
}

#[test]
fn highest_file_number() {
    let mut image = long_directory(170);
    let held = entry(64, 1, b"x");
    patch(&mut image, 1 + 3967 / 24, 64 * (3967 % 24), &held);
    set_record(&mut image, 479, record(3967, 0));
    count_free(&mut image);
    assert_eq!(all_calls(&image, b"x"), [0; 4]);
}

#[test]
fn directory_of_all_blocks_with_its_end_within_the_last() {
    for over in [64, 128, 1472] {
        let mut image = long_directory(479);
        set_word(&mut image, 34, 478);
        set_word(&mut image, 36, over);
        assert_eq!(check(&image), [0; 4], "{over} bytes over");
    }
}
