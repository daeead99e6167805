//! A disk each of whose tracks is laid out differently.

use super::both::{assert_refused, assert_unpacks};
use super::build::{disk, move_track, packed, UNIT};
use super::side::{gap_cells, side_bytes, Sector};

/// Sectors of a side, its gaps, places and order made from the track number.
fn sectors(track: usize, side: usize) -> Vec<Sector> {
    let mut sectors = Vec::new();
    for index in 0..9 {
        // 2, 4, 5 and 7 have no factor in common with nine sectors.
        let step = [1, 2, 4, 5, 7][track % 5];
        let r = 1 + (track + step * index) % 9;
        let image_sector = 18 * track + 9 * side + r - 1;
        let data = &disk()[512 * image_sector..512 * (image_sector + 1)];
        sectors.push(Sector {
            before: gap_cells(track + 37 * index),
            header_syncs: 3 + track % 3,
            gap: gap_cells((688 - track + 11 * side * index) % 689),
            ..Sector::good(track as u8, side as u8, r as u8, data)
        });
    }
    sectors
}

fn image() -> Vec<u8> {
    let mut hfe = packed()[..2 * UNIT].to_vec();
    for track in 0..80 {
        let sides = [0, 1].map(|side| side_bytes(&sectors(track, side)));
        move_track(&mut hfe, track, &sides);
    }
    hfe
}

/// Unpacked, sectors are ordered by track, side and R (§1.2 §8.1).
#[test]
fn read_as_any_other() {
    assert_unpacks(&image(), disk());
}

#[test]
fn a_fault_on_one_track() {
    let mut hfe = image();
    let mut faulty = sectors(9, 1);
    let r = faulty[4].header[2];
    faulty[4].gap = gap_cells(689);
    let sides = [side_bytes(&sectors(9, 0)), side_bytes(&faulty)];
    move_track(&mut hfe, 9, &sides);
    assert_refused(&hfe, [6, 9, 1, r.into()]);
}
