//! Tracks that share units: the same bytes may be a code for one side and data
//! for another.

use super::answer::{assert_unpacks, unpack, unpack_into};
use super::build::{
    append, disk, in_sector, lay_track_0_over_header, pattern, TRACK_0_GOOD, WRITTEN,
};
use super::spoil::{AFTER, SYNC};
use super::{
    coded_track_0, filled, packed, set_entry, sides, spliced, units, version_3, written,
    wrong_code, UNIT,
};
use support::codes::{COUNTS, INDEX, NOTHING, RATE, SKIP, WEAK};

/// A side of two tracks, 20 and then 21, with these bytes between them.
fn two_in_a_row(hfe: &[u8], between: &[u8]) -> [Vec<u8>; 2] {
    let [lower, upper] = [sides(hfe, 20), sides(hfe, 21)];
    [0, 1].map(|side| [&lower[side][..], between, &upper[side]].concat())
}

/// The image with both tracks' entries at this unit.
fn both_at(mut hfe: Vec<u8>, row: &[Vec<u8>; 2]) -> Vec<u8> {
    let unit = append(&mut hfe, &units(row));
    for track in [20, 21] {
        set_entry(&mut hfe, 1, track, unit, 2 * row[0].len());
    }
    hfe
}

/// Two tracks have the same units: both are read without the codes (§2.6 §2.8).
#[test]
fn two_tracks_at_the_same_unit() {
    let codes = [INDEX, RATE, WEAK, NOTHING, SKIP, COUNTS[3], WEAK];
    let hfe = version_3(packed());
    let row = two_in_a_row(&hfe, &codes);
    assert_unpacks(&both_at(hfe, &row), disk());
}

/// A wrong code of bytes that several sides have is named for the first of them
/// by track (§7.25), wherever these tracks stand.
#[test]
fn wrong_code_of_two_tracks() {
    for side in [0, 1] {
        let hfe = version_3(packed());
        let mut row = two_in_a_row(&hfe, &[]);
        row[side][20_000] = WEAK;
        let hfe = both_at(hfe, &row);
        assert_eq!(unpack(&hfe), wrong_code(20, side, 20_000));
    }
    // Track 41 begins within track 42, whose first units it has not.
    for (place, expected) in [
        (256 * 8 + 5, wrong_code(41, 1, 5)),
        (256 * 8 - 1, wrong_code(42, 1, 256 * 8 - 1)),
    ] {
        let mut hfe = version_3(packed());
        let mut sides = sides(&hfe, 42);
        sides[1][place] = WEAK;
        let unit = append(&mut hfe, &units(&sides));
        set_entry(&mut hfe, 1, 42, unit, WRITTEN);
        set_entry(&mut hfe, 1, 41, unit + 8, WRITTEN - 8 * UNIT);
        assert_eq!(unpack(&hfe), expected);
    }
}

/// Two tracks' sides one after the other, such that 21's begin with a unit; in
/// it stands, for track 20, the second part of a code.
fn over_codes(code: &[u8], own: usize, side: usize) -> Vec<u8> {
    let mut hfe = version_3(packed());
    let [lower, upper] = [sides(&hfe, 20), sides(&hfe, 21)];
    let mut row = [0, 1].map(|side| {
        let mut bytes = lower[side].clone();
        bytes.resize(256 * 50, NOTHING);
        bytes
    });
    row[side].truncate(256 * 50 - own);
    row[side].extend(code);
    for (bytes, upper) in row.iter_mut().zip(&upper) {
        bytes.extend(upper);
    }
    let row = filled(row);
    let unit = append(&mut hfe, &units(&row));
    set_entry(&mut hfe, 1, 20, unit, 2 * row[0].len());
    set_entry(&mut hfe, 1, 21, unit + 50, 2 * row[0].len() - 50 * UNIT);
    hfe
}

/// A track begins within another's code: what belongs to that code there is a
/// code here, or data (§2.7 §2.9).
#[test]
fn track_over_codes_of_another() {
    for side in [0, 1] {
        for (code, own, expected) in [
            // A bit rate that is nothing, and one that is a wrong code.
            (&[RATE, NOTHING][..], 1, [0; 4]),
            (&[RATE, 0x12], 1, [0; 4]),
            (&[RATE, WEAK], 1, wrong_code(21, side, 0)),
            (&[RATE, SKIP, 0x12], 1, wrong_code(21, side, 0)),
            (&[RATE, SKIP, COUNTS[4]], 1, [0; 4]),
            (&[SKIP, COUNTS[1], INDEX], 2, [0; 4]),
            (&[SKIP, COUNTS[1], WEAK], 2, wrong_code(21, side, 0)),
            (
                &[SKIP, COUNTS[1], NOTHING, WEAK],
                2,
                wrong_code(20, side, 256 * 50 + 1),
            ),
            (&[SKIP, COUNTS[1], SKIP], 1, wrong_code(21, side, 1)),
            // A code of track 20 that is complete: for 21 no byte is left.
            (&[RATE, 0x12], 2, [0; 4]),
        ] {
            let hfe = over_codes(code, own, side);
            let (reply, image) = unpack_into(&hfe, pattern());
            assert_eq!(reply, expected, "{code:02X?}, {own} before the unit");
            assert!(reply[0] != 0 || image == disk());
        }
    }
}

/// A track ends within a code that another track over the same units has whole:
/// what belongs to the code past its own end completes nothing (§2.9).
#[test]
fn track_that_ends_within_a_code() {
    for side in [0, 1] {
        let wrong = wrong_code(20, side, 12_500);
        for (code, own, expected) in [
            (&[RATE, 0x12][..], 0, [0; 4]),
            (&[RATE, 0x12], 1, wrong),
            (&[RATE, 0x12], 2, [0; 4]),
            (&[SKIP, COUNTS[1], 0x49], 1, wrong),
            (&[SKIP, COUNTS[1], 0x49], 2, wrong),
            (&[SKIP, COUNTS[1], 0x49], 3, [0; 4]),
        ] {
            let hfe = version_3(packed());
            let unit = hfe.len() / UNIT;
            let mut row = two_in_a_row(&hfe, code);
            // The other side has codes of one byte, which no end can cut.
            row[1 - side][12_500..12_500 + code.len()].fill(NOTHING);
            let mut hfe = both_at(hfe, &row);
            assert_unpacks(&hfe, disk());
            set_entry(&mut hfe, 1, 20, unit, 2 * (12_500 + own));
            assert_eq!(unpack(&hfe), expected, "{code:02X?}, {own} of it");
        }
    }
}

/// The unit of the HFE header with no byte that looks like a code: what is not
/// judged is 00, and so are flags and encodings.
fn header_without_codes(hfe: &mut [u8]) {
    hfe[14..18].fill(0);
    hfe[20..UNIT].fill(0);
}

/// A track may lie over the HFE header (§2.5), whose bytes are then cells or
/// codes as any others (§2.7).
#[test]
fn track_over_the_header() {
    let mut hfe = version_3(packed());
    lay_track_0_over_header(&mut hfe);
    // Byte 17 is FF.
    assert_eq!(unpack(&hfe), wrong_code(0, 0, 17));
    header_without_codes(&mut hfe);
    assert_unpacks(&hfe, disk());
    // The number of tracks, which may be 80 to 255, as a code: index; two that
    // are reserved; F3, whose count would be the number of sides, stored as 2.
    for (tracks, expected) in [
        (INDEX, [0; 4]),
        (0xFF, wrong_code(0, 0, 9)),
        (0x5F, wrong_code(0, 0, 9)),
        (SKIP, wrong_code(0, 0, 9)),
    ] {
        hfe[9] = tracks;
        assert_eq!(unpack(&hfe), expected, "{tracks} tracks");
    }
    // Side 1 has the second half of the unit.
    hfe[9] = 80;
    hfe[256 + 3] = WEAK;
    assert_eq!(unpack(&hfe), wrong_code(0, 1, 3));
}

/// A track over the track table: the unit of track 13 is 639, and its low byte,
/// 7F, is reserved (§2.9).
#[test]
fn track_over_the_table() {
    let mut hfe = version_3(packed());
    set_entry(&mut hfe, 1, 0, 1, WRITTEN + UNIT);
    assert_eq!(unpack(&hfe), wrong_code(0, 0, 4 * 13));
}

/// A code at the end of a unit's half: what belongs to it are the side's next
/// bytes, in the next unit (§2.6 §2.7).
#[test]
fn codes_over_the_end_of_a_unit() {
    for unit in [1, 2, 20, 46] {
        for back in 0..=3 {
            for side in [0, 1] {
                let at = 256 * unit - back;
                let mut sides = written();
                let code = [RATE, WEAK, SKIP, COUNTS[0], sides[side][at]];
                sides[side] = spliced(&sides[side], at, 1, &code);
                let reply = unpack(&coded_track_0(sides));
                assert_eq!(reply, TRACK_0_GOOD, "unit {unit}, {back} before");
            }
        }
    }
    assert!((in_sector(9, SYNC)..in_sector(9, AFTER)).contains(&(256 * 46)));
}
