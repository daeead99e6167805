//! Wrong codes: which they are, which of several is named, and when.

use super::answer::{unpack, unpack_into};
use super::build::{in_sector, pattern, TRACK_0_GOOD};
use super::spoil::{spoil, AFTER, DATA, SYNC};
use super::{
    cell_byte, coded_track_0, lay, packed, set_entry, spliced, version_3, written, wrong_code,
    LETTERS,
};
use support::codes::{looks_like_code, COUNTS, INDEX, NOTHING, RATE, SKIP, WEAK};
use support::noise::noise;

/// F4 to FF as they are stored, lowest first.
const NEVER_RIGHT: [u8; 12] = [
    0x2F, 0xAF, 0x6F, 0xEF, 0x1F, 0x9F, 0x5F, 0xDF, 0x3F, 0xBF, 0x7F, 0xFF,
];

/// A gap byte of a written side, after its sector 4.
fn gap_place() -> usize {
    in_sector(4, AFTER + 9)
}

/// F4, a weak area, and F5 to FF, reserved, are wrong wherever they stand, in a
/// gap or in a sector (§2.9).
#[test]
fn codes_that_are_never_right() {
    for code in NEVER_RIGHT {
        for at in [0, 1, 255, 256, gap_place(), in_sector(2, SYNC), 12_499] {
            let [side_0, side_1] = written();
            let changed = spliced(&side_0, at, 1, &[code]);
            let hfe = coded_track_0([changed, side_1.clone()]);
            assert_eq!(unpack(&hfe), wrong_code(0, 0, at), "{code:02X}");
            let changed = spliced(&side_1, at, 1, &[code]);
            let hfe = coded_track_0([side_0, changed]);
            assert_eq!(unpack(&hfe), wrong_code(0, 1, at), "{code:02X}");
        }
    }
}

/// A count is one of the eight that read as 0 to 7; with any other the F3 is
/// wrong, at its own place (§2.9). What would follow is not looked at.
#[test]
fn every_count() {
    for count in 0..=255 {
        let at = gap_place();
        let [side_0, side_1] = written();
        let bytes = [SKIP, count, side_0[at]];
        let side_0 = spliced(&side_0, at, 1, &bytes);
        let expected = match COUNTS.contains(&count) {
            true => TRACK_0_GOOD,
            false => wrong_code(0, 0, at),
        };
        let hfe = coded_track_0([side_0, side_1]);
        assert_eq!(unpack(&hfe), expected, "{count:02X}");
    }
}

/// The place is that of the code among all bytes of the side, those of other
/// codes among them (§2.9); bytes that belong to codes are none.
#[test]
fn places_after_other_codes() {
    let before = [
        NOTHING, INDEX, RATE, WEAK, SKIP, COUNTS[2], WEAK, RATE, SKIP,
    ];
    for at in [0, 247, 250, gap_place()] {
        for (wrong, inner) in [
            (&[WEAK][..], 0),
            (&[SKIP, 0x08], 0),
            (&[NOTHING, WEAK, WEAK], 1),
            (&[SKIP, COUNTS[0], WEAK, WEAK], 3),
        ] {
            let [side_0, side_1] = written();
            let bytes = [&before, wrong].concat();
            let side_0 = spliced(&side_0, at, 0, &bytes);
            let expected = wrong_code(0, 0, at + before.len() + inner);
            assert_eq!(unpack(&coded_track_0([side_0, side_1])), expected);
        }
    }
}

/// All 160 sides are judged (§7.25): each alone has a wrong code, in its last
/// byte or its first.
#[test]
fn every_side_of_a_disk() {
    let good = version_3(packed());
    for track in 0..80 {
        for side in [0, 1] {
            let (place, code) = match track % 2 {
                0 => (12_499, SKIP),
                _ => (0, WEAK),
            };
            let mut hfe = good.clone();
            lay(&mut hfe, track, side, place, &[code]);
            let reply = unpack_into(&hfe, pattern()).0;
            assert_eq!(reply, wrong_code(track, side, place));
        }
    }
}

/// Of several the first by track, then side, then place (§7.25).
#[test]
fn first_by_track_side_and_place() {
    let mut hfe = version_3(packed());
    for (track, side, place, code) in [
        (79, 1, 12_499, RATE),
        (79, 1, 12_498, SKIP),
        (79, 1, 3, WEAK),
        (79, 0, 12_499, SKIP),
        (40, 1, 0, 0xFF),
        (40, 0, 12_000, WEAK),
        (3, 1, 700, 0x9F),
        (3, 0, 12_499, RATE),
        (3, 0, 0, 0x6F),
        (0, 1, 9, WEAK),
        (0, 0, 12_499, WEAK),
    ] {
        lay(&mut hfe, track, side, place, &[code]);
        let reply = unpack_into(&hfe, pattern()).0;
        assert_eq!(reply, wrong_code(track, side, place));
    }
}

/// 18 comes before 4 to 7 (§7.25): the first sector is bad, and the last side has
/// a wrong code.
#[test]
fn wrong_code_before_bad_sectors() {
    for number in 4..=7 {
        let mut hfe = version_3(packed());
        spoil(&mut hfe, number, 0, 0, 1);
        plain_again(&mut hfe);
        assert_eq!(unpack(&hfe), [number, 0, 0, 1]);
        for (track, side, place) in [(79, 1, 12_499), (79, 0, 6), (0, 1, 300), (0, 0, 12_400)] {
            lay(&mut hfe, track, side, place, &[WEAK]);
            assert_eq!(unpack(&hfe), wrong_code(track, side, place));
        }
    }
}

/// Bytes that spoiling made look like codes are changed in a clock cell.
fn plain_again(hfe: &mut [u8]) {
    for index in 0..2 * 658 {
        let at = cell_byte(0, 0, in_sector(1, 0) + index);
        if looks_like_code(hfe[at]) {
            hfe[at] &= !0x04;
        }
    }
}

/// 1, 2 and 3 come before 18 (§7.25 §8.1).
#[test]
fn lengths_header_and_table_before_wrong_codes() {
    let mut hfe = version_3(packed());
    lay(&mut hfe, 0, 0, 0, &[WEAK]);
    assert_eq!(unpack(&hfe), wrong_code(0, 0, 0));
    let mut wrong_table = hfe.clone();
    set_entry(&mut wrong_table, 1, 79, 2, 3);
    assert_eq!(unpack(&wrong_table), [3, 79, 0, 0]);
    let mut wrong_header = wrong_table.clone();
    wrong_header[25] = 1;
    wrong_header[24] = 0;
    assert_eq!(unpack(&wrong_header), [2, 25, 0, 0]);
    wrong_header[8] = 1;
    assert_eq!(unpack(&wrong_header), [2, 8, 0, 0]);
    let short = noise(5, 1000);
    assert_eq!(unpack_into(&wrong_header, &short).0, [1, 2, 0, 0]);
    assert_eq!(unpack_into(&wrong_header[..1023], &short).0, [1, 1, 0, 0]);
    assert_eq!(wrong_header[..8], LETTERS);
}

/// 18 changes no byte of the block image (§7.19), even if all sectors before the
/// wrong code are good.
#[test]
fn image_stays_as_it_was() {
    let mut hfe = version_3(packed());
    lay(&mut hfe, 79, 1, in_sector(9, DATA), &[WEAK]);
    let (reply, image) = unpack_into(&hfe, pattern());
    assert_eq!(reply, wrong_code(79, 1, in_sector(9, DATA)));
    assert!(image == pattern());
}
