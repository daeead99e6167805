//! Which bytes of a sector count for 4 to 7, and which headers.

use super::answer::{assert_refused, assert_unpacks};
use super::build::{cell_byte, disk, in_sector, invert, packed};
use super::spoil::{
    copy, spoil, AFTER, DATA, DATA_CRC, DATA_MARK, FIELD_SYNC, GAP, HEADER_CRC, HEADER_MARK, SYNC,
};

/// What a sector gives (§4.6): its bytes; 4, 6 or 7 by the byte that is wrong;
/// 5 where its header stands twice.
#[test]
fn each_byte_has_its_refusal() {
    assert_unpacks(&packed(), disk());
    for (index, number) in [
        (SYNC, 4),
        (SYNC + 2, 4),
        (HEADER_MARK, 4),
        (HEADER_MARK + 1, 4),
        (HEADER_MARK + 4, 4),
        (HEADER_CRC, 4),
        (HEADER_CRC + 1, 4),
        (FIELD_SYNC, 6),
        (FIELD_SYNC + 2, 6),
        (DATA_MARK, 6),
        (DATA, 7),
        (DATA + 511, 7),
        (DATA_CRC, 7),
        (DATA_CRC + 1, 7),
    ] {
        let mut hfe = packed();
        invert(&mut hfe, 41, 1, 6, index);
        assert_refused(&hfe, [number, 41, 1, 6]);
    }
    let mut hfe = packed();
    spoil(&mut hfe, 5, 41, 1, 6);
    assert_refused(&hfe, [5, 41, 1, 6]);
}

#[test]
fn bytes_between_do_not_count() {
    let mut hfe = packed();
    for index in [0, 11, GAP, FIELD_SYNC - 1, AFTER, AFTER + 83] {
        invert(&mut hfe, 41, 1, 6, index);
    }
    assert_unpacks(&hfe, disk());
}

/// Places inside data fields are tried too (§4.3).
#[test]
fn header_inside_a_data_field_counts() {
    let mut hfe = packed();
    let (from, to) = (in_sector(3, SYNC), in_sector(7, DATA + 100));
    copy(&mut hfe, 50, 0, from, to, 20);
    assert_refused(&hfe, [5, 50, 0, 3]);
}

/// A header of another track belongs to no sector (§4.2).
#[test]
fn header_of_another_track_does_not_count() {
    let mut hfe = packed();
    for index in 0..20 {
        let byte = hfe[cell_byte(49, 0, in_sector(3, SYNC) + index)];
        hfe[cell_byte(50, 0, in_sector(3, AFTER + 3) + index)] = byte;
    }
    assert_unpacks(&hfe, disk());
}

/// A field needs its mark (§4.5), and no later run is tried (§4.4).
#[test]
fn other_mark_at_the_first_sync_run() {
    // Sync bytes in the gap stand before the data field's own.
    let mut hfe = packed();
    let (from, to) = (in_sector(2, FIELD_SYNC), in_sector(2, GAP + 5));
    copy(&mut hfe, 8, 1, from, to, 6);
    assert_refused(&hfe, [6, 8, 1, 2]);
}

#[test]
fn side_shifted_by_one_cell_reads_the_same() {
    let mut hfe = packed();
    let mut carry = 0;
    for index in 0..12_500 {
        let byte = &mut hfe[cell_byte(12, 1, index)];
        let highest = *byte >> 7;
        *byte = *byte << 1 | carry;
        carry = highest;
    }
    assert_unpacks(&hfe, disk());
}

#[test]
fn empty_track() {
    let mut hfe = packed();
    for side in [1, 0] {
        for index in 0..12_500 {
            hfe[cell_byte(66, side, index)] = 0;
        }
        assert_refused(&hfe, [4, 66, side, 1]);
    }
}
