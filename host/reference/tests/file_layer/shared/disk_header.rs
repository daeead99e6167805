//! Refusal 8: each field of the disk header.

use super::all_calls::all_calls;
use super::answer::{check, first_track};
use super::build::{fresh, patch, set_word, three_files, word};
use reference::geometry::TRACK_LEN;

/// What check says, and for all but 10 the first track too.
fn judged(image: &[u8]) -> [usize; 4] {
    let checked = check(image);
    let (track, _) = first_track(&image[..TRACK_LEN]);
    if checked[0] != 10 {
        assert_eq!(track, checked);
    }
    checked
}

/// Letters (§6.1), sizes (§6.5), track offset and tables (§6.7) are judged, and
/// names and counts are not (§6.2 §6.3). The good word is a matter of 19 (§6.18).
#[test]
fn every_byte_alone() {
    let image = fresh();
    // Byte 36 can be changed to other good lengths; see below.
    for offset in (0..96).filter(|&offset| offset != 36) {
        let expected = match offset {
            0..=3 => [8, 0, 0, 0],
            4..=19 | 76..=95 => [0; 4],
            20 | 21 => [11, 0, 0, 0],
            22 | 23 => [19, 0, 0, 0],
            24..=33 => [8, offset & !1, 0, 0],
            // More blocks than the directory has.
            34 | 35 => [10, 0, 0, 0],
            37 => [8, 34, 0, 0],
            38 | 39 => [8, 38, 0, 0],
            40..=57 => [8, 40, 0, 0],
            _ => [8, 58, 0, 0],
        };
        for change in [0x01, 0x10, 0xFF] {
            let mut image = image.clone();
            image[offset] ^= change;
            assert_eq!(judged(&image), expected, "{offset} changed by {change}");
        }
    }
}

/// Of a table every bit counts (§6.7 §7.8).
#[test]
fn every_bit_of_the_tables() {
    let image = fresh();
    for offset in 40..76 {
        let field = if offset < 58 { 40 } else { 58 };
        for bit in 0..8 {
            let mut image = image.clone();
            image[offset] ^= 1 << bit;
            assert_eq!(judged(&image), [8, field, 0, 0], "{offset}, bit {bit}");
        }
    }
}

/// Which lengths a directory can have (§6.6).
#[test]
fn directory_lengths() {
    for (blocks, over, expected) in [
        (0, 0, [8, 34, 0, 0]),
        (0, 1, [8, 34, 0, 0]),
        (0, 32, [8, 34, 0, 0]),
        (0, 63, [8, 34, 0, 0]),
        (0, 64, [0; 4]),
        (0, 65, [8, 34, 0, 0]),
        (0, 128, [0; 4]),
        (0, 320, [0; 4]),
        (0, 1472, [0; 4]),
        (0, 1535, [8, 34, 0, 0]),
        (0, 1536, [8, 34, 0, 0]),
        (0, 1600, [8, 34, 0, 0]),
        (0, 65_472, [8, 34, 0, 0]),
        (1, 0, [0; 4]),
        (1, 32, [8, 34, 0, 0]),
        (1, 64, [10, 0, 0, 0]),
        (1, 1536, [8, 34, 0, 0]),
        (2, 0, [10, 0, 0, 0]),
        (479, 0, [10, 0, 0, 0]),
        (480, 0, [10, 0, 0, 0]),
        (32_768, 0, [10, 0, 0, 0]),
        (65_535, 1472, [10, 0, 0, 0]),
        (65_535, 65_472, [8, 34, 0, 0]),
    ] {
        let mut image = fresh();
        set_word(&mut image, 34, blocks);
        set_word(&mut image, 36, over);
        assert_eq!(judged(&image), expected, "{blocks} blocks, {over} over");
    }
}

/// 8 names the lowest wrong field (§7.8), the tables last (§6.7).
#[test]
fn lowest_wrong_field_is_named_by_all_calls() {
    let mut image = three_files();
    for offset in [58, 40, 38, 36, 32, 30, 28, 26, 24, 0] {
        let wrong = word(&image, offset) ^ 0x0101;
        set_word(&mut image, offset, wrong);
        let field = if offset == 36 { 34 } else { offset };
        assert_eq!(all_calls(&image, b"f2"), [8, field, 0, 0]);
    }
}

/// The lowest number is given (§7.18).
#[test]
fn header_goes_before_map_directory_and_free_word() {
    let mut image = three_files();
    set_word(&mut image, 20, 1);
    assert_eq!(all_calls(&image, b"f2"), [11, 0, 0, 0]);
    patch(&mut image, 1, 64 + 14, &[0, 0]);
    assert_eq!(all_calls(&image, b"f2"), [10, 1, 0, 0]);
    patch(&mut image, 0, 96 + 3 * 400, &[0xFC, 0xFF, 0xFF]);
    assert_eq!(all_calls(&image, b"f2"), [9, 400, 0, 0]);
    set_word(&mut image, 32, 6);
    assert_eq!(all_calls(&image, b"f2"), [8, 32, 0, 0]);
}
