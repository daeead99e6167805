//! Refusals 9 and 11: map records and the free word. Bad blocks and 19 stand in
//! `bad_blocks`.

use super::all_calls::all_calls;
use super::answer::{check, first_track};
use super::build::{count_free, fresh, set_record, set_word, three_files, BAD, FREE};
use reference::geometry::TRACK_LEN;

/// Records of none of the kinds.
const NONE: [[u8; 3]; 10] = [
    [0xF8, 0x00, 0x01],
    [0xF8, 0x01, 0x00],
    [0xF8, 0xFF, 0xFF],
    [0xF9, 0x00, 0x00],
    [0xFA, 0x00, 0x00],
    [0xFB, 0x00, 0x00],
    [0xFC, 0xFF, 0xFF],
    [0xFE, 0x00, 0x00],
    [0xFE, 0xFF, 0xFE],
    [0xFF, 0xFF, 0xFF],
];

/// Records of no kind are refused (§6.9 §7.9).
#[test]
fn records_of_no_kind() {
    for bytes in NONE {
        for block in [0, 1, 2, 8, 9, 479] {
            let mut image = three_files();
            set_record(&mut image, block, bytes);
            count_free(&mut image);
            assert_eq!(check(&image), [9, block, 0, 0], "{bytes:02X?}");
        }
    }
}

/// Block 0 has the system's record and no other block has it (§7.9).
#[test]
fn block_0_is_system_and_no_other() {
    for wrong in [FREE, BAD, [0, 0, 0], [0, 0, 1], [0xF7, 0xFF, 0xFF]] {
        let mut image = fresh();
        set_record(&mut image, 0, wrong);
        count_free(&mut image);
        assert_eq!(all_calls(&image, b"x"), [9, 0, 0, 0]);
    }
    for block in [1, 2, 100, 255, 256, 479] {
        let mut image = fresh();
        set_record(&mut image, block, [0xF8, 0, 0]);
        assert_eq!(all_calls(&image, b"x"), [9, block, 0, 0]);
    }
}

/// 9 names the lowest block (§7.9).
#[test]
fn lowest_block_is_named() {
    let mut image = three_files();
    for block in [479, 300, 7, 1, 0] {
        set_record(&mut image, block, [0xFF, 0, 0]);
        assert_eq!(check(&image), [9, block, 0, 0]);
        let (track, _) = first_track(&image[..TRACK_LEN]);
        assert_eq!(track, [9, block, 0, 0]);
    }
}

/// Kinds of record by their bytes (§6.8 §6.9).
#[test]
fn every_first_byte() {
    for first in 0..=255u8 {
        let mut image = fresh();
        set_record(&mut image, 77, [first, 0x20, 0x00]);
        count_free(&mut image);
        let expected = match first {
            0xFD => [0; 4],
            0xF8.. => [9, 77, 0, 0],
            // The directory has no such slot.
            _ => [10, usize::from(first) * 16 + 2, 0, 0],
        };
        assert_eq!(check(&image), expected, "first byte {first:02X}");
    }
}

/// The free word is 3 x the free records (§6.4), and else refused (§7.11).
#[test]
fn free_words() {
    for word in [
        0, 1, 1410, 1412, 1413, 1414, 1415, 1434, 1440, 32_768, 65_535,
    ] {
        let mut image = three_files();
        set_word(&mut image, 20, word);
        let expected = if word == 1413 { [0; 4] } else { [11, 0, 0, 0] };
        assert_eq!(all_calls(&image, b"f2"), expected, "{word}");
    }
}
