//! Cells in bytes (§2.6, §3.1).

use crate::build::noise;
use reference::cells::{buffer_cells, pack_cells, side_bytes, side_cells};

/// The first cell is the lowest bit (§3.1).
#[test]
fn lowest_bit_is_the_first_cell() {
    assert_eq!(
        buffer_cells(&[0x01, 0xC8]),
        [1, 0, 0, 0, 0, 0, 0, 0, 0, 0, 0, 1, 0, 0, 1, 1]
    );
}

#[test]
fn packing_undoes_reading() {
    let bytes = noise(1, 300);
    assert_eq!(pack_cells(&buffer_cells(&bytes)), bytes);
}

#[test]
fn packing_leaves_unused_bits_zero() {
    assert_eq!(pack_cells(&[0, 1, 1]), [0x06]);
    assert!(pack_cells(&[]).is_empty());
}

/// A part of two units where each byte says side, unit and place.
fn two_units() -> Vec<u8> {
    let mut part = vec![0x10; 256];
    part.extend(vec![0x20; 256]);
    part.extend(vec![0x11; 256]);
    part.extend(vec![0x21; 256]);
    part
}

/// Each unit has 256 bytes of each side (§2.6).
#[test]
fn sides_take_turns_every_256_bytes() {
    let part = two_units();
    let side_0 = [[0x10; 256], [0x11; 256]].concat();
    let side_1 = [[0x20; 256], [0x21; 256]].concat();
    assert_eq!(side_bytes(&part, 1024, 0), side_0);
    assert_eq!(side_bytes(&part, 1024, 1), side_1);
}

/// The last unit, too, is used from the beginning of its halves (§2.6).
#[test]
fn last_unit_is_filled_from_the_start_of_both_halves() {
    let mut part = two_units();
    // 250 bytes of each side lie in the last unit; the rest is not read.
    part[512] = 0x31;
    part[512 + 249] = 0x32;
    part[512 + 250] = 0x33;
    part[768] = 0x41;
    part[768 + 249] = 0x42;
    part[768 + 250] = 0x43;
    let side_0 = side_bytes(&part, 1012, 0);
    let side_1 = side_bytes(&part, 1012, 1);
    assert_eq!((side_0.len(), side_1.len()), (506, 506));
    assert_eq!((side_0[255], side_0[256], side_0[505]), (0x10, 0x31, 0x32));
    assert_eq!((side_1[255], side_1[256], side_1[505]), (0x20, 0x41, 0x42));
}

#[test]
fn short_track_within_one_unit() {
    let mut part = vec![0xFF; 512];
    part[0] = 0x01;
    part[256] = 0x80;
    assert_eq!(side_cells(&part, 2, 0), [1, 0, 0, 0, 0, 0, 0, 0]);
    assert_eq!(side_cells(&part, 2, 1), [0, 0, 0, 0, 0, 0, 0, 1]);
}

#[test]
fn bytes_after_the_track_do_not_matter() {
    let part = noise(2, 2048);
    assert_eq!(
        side_cells(&part, 1000, 1),
        side_cells(&part[..1024], 1000, 1)
    );
    assert_eq!(side_cells(&part, 1000, 0).len(), 4000);
}
