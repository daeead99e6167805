//! Codes at the end of a side, sides of codes alone, and cells that fill no
//! byte.

use super::answer::unpack;
use super::build::{append, EMPTY, TRACK_0_GOOD, UNIT};
use super::side::{gap_cells, good_sectors, Sector};
use super::{
    build, coded_track_0, set_entry, spliced, units, version_3_of_empty, written, wrong_code,
};
use reference::cells::pack_cells;
use support::codes::{part, COUNTS, INDEX, NOTHING, RATE, SKIP, WEAK};

/// Lengths of a side: as `pack` writes it, some bytes about that, and whole
/// units.
const LENS: [usize; 5] = [12_499, 12_500, 12_501, 49 * 256, 49 * 256 + 1];

/// The written sides of track 0 with so many bytes each: some gap is cut off or
/// put on. One of them ends with these bytes.
fn ending(len: usize, side: usize, end: &[u8]) -> [Vec<u8>; 2] {
    let mut sides = written();
    for bytes in &mut sides {
        let gap = bytes[12_490..].to_vec();
        bytes.truncate(12_400);
        bytes.extend(gap.iter().cycle().take(len - 12_400));
    }
    sides[side].truncate(len - end.len());
    sides[side].extend(end);
    sides
}

/// Whole codes may be the last bytes of a side (§2.9): they ask for nothing
/// more.
#[test]
fn whole_codes_at_the_end() {
    let ends = [
        &[NOTHING][..],
        &[INDEX],
        &[RATE, NOTHING],
        &[RATE, RATE],
        &[RATE, WEAK],
        &[SKIP, COUNTS[0], 0x49],
        &[SKIP, COUNTS[7], SKIP],
        &[INDEX, NOTHING, INDEX],
    ];
    for len in LENS {
        for side in [0, 1] {
            for end in ends {
                let hfe = coded_track_0(ending(len, side, end));
                assert_eq!(unpack(&hfe), TRACK_0_GOOD, "{len} {side} {end:02X?}");
            }
        }
    }
}

/// Codes that lack bytes of their own, and one whose count is over 7 too.
const CUT: [&[u8]; 7] = [
    &[RATE],
    &[SKIP],
    &[SKIP, COUNTS[0]],
    &[SKIP, COUNTS[7]],
    &[SKIP, 0x10],
    &[SKIP, SKIP],
    &[SKIP, 0xFF],
];

/// A code that the end of the side cuts is wrong, at its own place (§2.9).
#[test]
fn codes_cut_by_the_end() {
    for len in LENS {
        for side in [0, 1] {
            for end in CUT {
                let hfe = coded_track_0(ending(len, side, end));
                let expected = wrong_code(0, side, len - end.len());
                assert_eq!(unpack(&hfe), expected, "{len} {end:02X?}");
            }
        }
    }
}

/// An image whose track 0 has these sides without their last bytes, which stand
/// where they would.
fn with_more(sides: &[Vec<u8>; 2], more: usize) -> Vec<u8> {
    let mut hfe = version_3_of_empty(build::empty_tracks());
    let unit = append(&mut hfe, &units(sides));
    set_entry(&mut hfe, 1, 0, unit, 2 * (sides[0].len() - more));
    hfe
}

/// Bytes past the end of the side are not looked at (§2.9): they complete no
/// code, whether they are in the same unit or in the next.
#[test]
fn bytes_past_the_end_complete_nothing() {
    let after = [COUNTS[0], 0x49, 0x49];
    for len in LENS {
        for side in [0, 1] {
            for end in CUT {
                let end_and_more = [end, &after[..]].concat();
                let sides = ending(len + after.len(), side, &end_and_more);
                let expected = wrong_code(0, side, len - end.len());
                let hfe = with_more(&sides, after.len());
                assert_eq!(unpack(&hfe), expected, "{len} {end:02X?}");
            }
        }
    }
}

/// Nor do they give a wrong code, or cells (§2.9).
#[test]
fn wrong_codes_past_the_end() {
    for len in LENS {
        for side in [0, 1] {
            for more in [&[WEAK][..], &[0xFF; 3], &[RATE], &[SKIP, 0xFF]] {
                let sides = ending(len + more.len(), side, more);
                let hfe = with_more(&sides, more.len());
                assert_eq!(unpack(&hfe), TRACK_0_GOOD, "{len} {more:02X?}");
            }
        }
    }
}

/// A side that has nothing but codes gives no cell (§2.8), and so no header: 4.
#[test]
fn sides_of_codes_alone() {
    for len in [1, 2, 255, 256, 257, 12_500, 32_767] {
        for code in [NOTHING, INDEX] {
            let codes = vec![code; len];
            let hfe = coded_track_0([codes.clone(), codes.clone()]);
            assert_eq!(unpack(&hfe), EMPTY, "{code:02X}, {len}");
            if len == 12_500 {
                let [side_0, _] = written();
                let hfe = coded_track_0([side_0, codes]);
                assert_eq!(unpack(&hfe), [4, 0, 1, 1]);
            }
        }
        // Of an odd number the last has no bit rate.
        let rates = vec![RATE; len];
        let expected = match len % 2 {
            0 => EMPTY,
            _ => wrong_code(0, 0, len - 1),
        };
        let hfe = coded_track_0([rates.clone(), rates]);
        assert_eq!(unpack(&hfe), expected, "rates, {len}");
    }
}

/// One F3 before the sectors, so that they begin at each place within a byte
/// (§2.8): the number of cells is no multiple of 8.
#[test]
fn sectors_at_all_places_within_a_byte() {
    for first in 1..=8 {
        for second in [1, 4, 8] {
            let [side_0, side_1] = written();
            let sides = [
                [&part(&gap_cells(first), 0xFF)[..], &side_0].concat(),
                [&part(&gap_cells(second), 0x0F)[..], &side_1].concat(),
            ];
            assert_eq!(unpack(&coded_track_0(sides)), TRACK_0_GOOD);
        }
    }
}

/// Cells are dropped before each sector: each begins at another place within a
/// byte (§2.8).
#[test]
fn cells_dropped_between_sectors() {
    let sides = written().map(|mut side| {
        for r in (1..=9).rev() {
            let at = build::in_sector(r, 5);
            let dropped = [SKIP, COUNTS[r % 8], side[at]];
            side = spliced(&side, at, 1, &dropped);
        }
        side
    });
    assert_eq!(unpack(&coded_track_0(sides)), TRACK_0_GOOD);
}

/// Nine sectors of side 0 after so many cells, with nothing after the last
/// field.
fn cells_to_the_end(before: usize) -> Vec<u8> {
    let sectors = good_sectors(0, 0, 5);
    let cells: Vec<u8> = sectors.iter().flat_map(Sector::cells).collect();
    [gap_cells(before), cells].concat()
}

/// The cells as bytes of which the last may be part of one.
fn bytes_of(cells: &[u8], dropped: u8) -> Vec<u8> {
    let (whole, rest) = cells.split_at(cells.len() / 8 * 8);
    let mut bytes = pack_cells(whole);
    if !rest.is_empty() {
        bytes.extend(part(rest, dropped));
    }
    bytes
}

/// The line of cells ends with the last one that is given (§2.8 §3.2): a field
/// may end there, at any place within a byte, and with one cell less it is not
/// present. What is dropped is of no use, nor are codes that follow.
#[test]
fn field_at_the_last_cell() {
    for before in 0..8 {
        let cells = cells_to_the_end(before);
        for dropped in [0x00, 0xFF] {
            for code in [&[][..], &[NOTHING], &[RATE, cells[0]]] {
                let judged = |cells: &[u8]| {
                    let side_0 = [&bytes_of(cells, dropped), code].concat();
                    unpack(&coded_track_0([side_0, written()[1].clone()]))
                };
                assert_eq!(judged(&cells), TRACK_0_GOOD, "{before} cells");
                let less = &cells[..cells.len() - 1];
                assert_eq!(judged(less), [6, 0, 0, 9], "{before} cells");
            }
        }
    }
}

/// The longest sides that the table can name, 32,767 bytes, in which the sectors
/// come last: all bytes give cells, or there are codes before them or among
/// them (§2.6 §2.8).
#[test]
fn longest_sides() {
    let longest = 32_767;
    for (codes, expected) in [
        (&[][..], TRACK_0_GOOD),
        (&[NOTHING], TRACK_0_GOOD),
        (&[SKIP, COUNTS[1], 0x49], TRACK_0_GOOD),
        (&[RATE, WEAK, INDEX, SKIP, COUNTS[7], WEAK], TRACK_0_GOOD),
        (&[RATE, WEAK, WEAK], wrong_code(0, 0, 2)),
    ] {
        let sides = [0, 1].map(|side| {
            let sectors = good_sectors(0, side, 5);
            let cells: Vec<u8> = sectors.iter().flat_map(Sector::cells).collect();
            let bytes = pack_cells(&cells);
            let gap = longest - codes.len() - bytes.len();
            [codes, &pack_cells(&gap_cells(8 * gap)), &bytes].concat()
        });
        let hfe = coded_track_0(sides);
        assert_eq!(hfe[UNIT..UNIT + 4], [2, 0, 0xFE, 0xFF], "the entry");
        assert_eq!(unpack(&hfe), expected, "{codes:02X?}");
    }
}

/// A header ends with the last cell, or a cell after it (§2.8 §4.1).
#[test]
fn header_at_the_last_cell() {
    for before in 0..8 {
        let cells = cells_to_the_end(before);
        let header_end = before + 640 + 160;
        let judged = |count: usize| {
            let side_0 = bytes_of(&cells[..count], 0xFF);
            unpack(&coded_track_0([side_0, Vec::new()]))
        };
        assert_eq!(judged(header_end), [6, 0, 0, 1]);
        assert_eq!(judged(header_end - 1), [4, 0, 0, 1]);
    }
}

/// Sides of one to four bytes, and no more than a code (§2.9).
#[test]
fn shortest_sides() {
    for (side, expected) in [
        (&[0x00][..], EMPTY),
        (&[NOTHING], EMPTY),
        (&[RATE], wrong_code(0, 0, 0)),
        (&[SKIP], wrong_code(0, 0, 0)),
        (&[WEAK], wrong_code(0, 0, 0)),
        (&[RATE, WEAK], EMPTY),
        (&[SKIP, 0x00], wrong_code(0, 0, 0)),
        (&[NOTHING, SKIP], wrong_code(0, 0, 1)),
        (&[SKIP, 0x00, WEAK], EMPTY),
        (&[SKIP, 0xE0, 0x80, WEAK], wrong_code(0, 0, 3)),
    ] {
        let hfe = coded_track_0([side.to_vec(), vec![0; side.len()]]);
        assert_eq!(unpack(&hfe), expected, "{side:02X?}");
    }
}
