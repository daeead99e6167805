//! Refusal 17: results that would not read as they must, and such that look
//! like it.

use super::answer::rewrite;
use super::build::{empty_tracks, move_track, set_entry, UNIT};
use super::side::gap_cells;
use super::{
    cells_of, data_ending, field, field_with, filled, given, given_with, header, header_of,
    on_side_0, with_data, DONE, FIELD, HEADER, MISREAD, RUN_AND_MARK, WRITTEN,
};
use reference::cells::pack_cells;
use support::noise::noise;

/// Asserts that a rewrite of a sector of track 0, side 0, is done, and that
/// every sector then gives what it has to.
fn assert_done(hfe: &[u8], r: usize, data: &[u8]) {
    let (reply, after) = rewrite(hfe, 0, 0, r, data);
    assert_eq!(reply, DONE);
    assert!(given(&after) == given_with(hfe, 0, 0, r, data));
}

/// Asserts that it is refused with 17.
fn assert_misread(hfe: &[u8], r: usize, data: &[u8]) {
    assert_eq!(rewrite(hfe, 0, 0, r, data).0, MISREAD);
}

/// Two headers, of which the second begins with the last two cells of the
/// first, so that the next run after either is the same one.
fn overlapping(first: &[u8], second: &[u8]) -> Vec<u8> {
    let kept = HEADER - 2;
    assert_eq!(first[kept..], second[..2], "cells in common");
    [&first[..kept], second].concat()
}

/// Two sectors with one field: the other one would give other bytes, so 17,
/// with no place (§7.24). The same bytes are written.
#[test]
fn field_of_two_headers() {
    let data = noise(1, 512);
    let headers = overlapping(&header(3), &header(4));
    // With a gap of 530 the field is 688 cells after the first header, with
    // one cell more out of its reach.
    for gap in [0, 1, 100, 530] {
        let cells = [&headers[..], &gap_cells(gap), &field(&data)].concat();
        let hfe = on_side_0(&filled(cells));
        for r in [3, 4] {
            assert_eq!(given(&hfe)[r - 1], Ok(data[..].try_into().unwrap()));
            assert_misread(&hfe, r, &noise(2, 512));
            assert_done(&hfe, r, &data);
        }
    }
    let cells = [&headers[..], &gap_cells(531), &field(&data)].concat();
    let hfe = on_side_0(&filled(cells));
    assert_eq!(given(&hfe)[2], Err(6));
    assert_done(&hfe, 4, &noise(2, 512));
}

/// A sector that gave 7 and would give its bytes gives something else than
/// before (§8.17).
#[test]
fn wrong_crc_of_a_shared_field_stays_wrong() {
    let data = noise(1, 512);
    let headers = overlapping(&header(3), &header(4));
    let hfe = on_side_0(&filled([headers, field_with(&data, 1)].concat()));
    for r in [3, 4] {
        assert_eq!(given(&hfe)[r - 1], Err(7));
        assert_misread(&hfe, r, &data);
        assert_misread(&hfe, r, &noise(2, 512));
    }
}

/// A sector that gave 7 and gives 7 still, while cells of its field are others:
/// it gave no byte, so that none is lost (§8.17).
#[test]
fn field_with_a_wrong_crc_gets_other_cells() {
    let around = field(&noise(1, 512))[..RUN_AND_MARK + 3200].to_vec();
    let within = [header(4), field(&noise(2, 512))].concat();
    let hfe = on_side_0(&filled([header(5), around, within].concat()));
    assert_eq!(given(&hfe)[4], Err(7));
    assert_done(&hfe, 4, &noise(3, 512));
    // Its own data would be written over the header of the other.
    assert_misread(&hfe, 5, &noise(3, 512));
}

/// A sector R 3 that has the cells of a header from so many cells on in its
/// data.
fn header_within(chrn: [u8; 4], at: usize) -> Vec<u8> {
    let mut cells = [header(3), field(&noise(1, 512))].concat();
    let first = HEADER + RUN_AND_MARK + at;
    cells[first..first + HEADER].copy_from_slice(&header_of(chrn));
    filled(cells)
}

/// A header within the written cells is lost, and its sector gives something
/// else (§8.17), unless it belongs to no sector.
#[test]
fn header_within_the_field() {
    for at in [0, 1, 777, 8192 - HEADER, WRITTEN - HEADER] {
        assert_misread(&on_side_0(&header_within([0, 0, 5, 2], at)), 3, &[9; 512]);
        for chrn in [[0, 0, 0, 2], [0, 0, 10, 2], [0, 0, 5, 3], [0, 1, 5, 2]] {
            assert_done(&on_side_0(&header_within(chrn, at)), 3, &[9; 512]);
        }
        // A header of track 1 counts where track 1 has the same units.
        let mut hfe = on_side_0(&header_within([1, 0, 5, 2], at));
        assert_done(&hfe, 3, &[9; 512]);
        let entry = hfe[UNIT..UNIT + 4].to_vec();
        hfe[UNIT + 4..UNIT + 8].copy_from_slice(&entry);
        assert_misread(&hfe, 3, &[9; 512]);
    }
}

/// One header of three is lost: there are two, and it was 5 and stays 5; one of
/// two is lost: 5 would become 6 (§8.17).
#[test]
fn several_headers_stay_several() {
    let lost = header_within([0, 0, 5, 2], 500);
    let two = [lost.clone(), header(5)].concat();
    assert_misread(&on_side_0(&two), 3, &[9; 512]);
    let three = [lost, header(5), header(5)].concat();
    assert_done(&on_side_0(&three), 3, &[9; 512]);
}

/// A sector R 3 and after it a header of `r` that begins with the last `shared`
/// cells of R 3's CRC, as far as these are its own; where they are not, it is
/// no header.
fn header_in_the_crc(data: &[u8], shared: usize, r: u8) -> Vec<u8> {
    let after = &header(r)[shared..];
    filled([&header(3), &gap_cells(544), &field(data), after].concat())
}

/// A header that begins with the CRC's last cell, 0, or its last two, 0 and 1,
/// stands as long as the new CRC ends with the same bit (§8.17).
#[test]
fn header_in_the_crc_is_kept_or_lost() {
    for (shared, bit) in [(1, 0), (2, 1)] {
        let hfe = on_side_0(&header_in_the_crc(&data_ending(bit, 1), shared, 4));
        assert_eq!(given(&hfe)[3], Err(6), "the header of R 4 stands");
        for number in 2..6 {
            assert_done(&hfe, 3, &data_ending(bit, number));
            assert_misread(&hfe, 3, &data_ending(1 - bit, number));
        }
    }
}

/// The same cells without a header there, since the old CRC ends otherwise: a
/// new one may make it arise (§8.17).
#[test]
fn header_in_the_crc_arises() {
    for (shared, bit) in [(1, 0), (2, 1)] {
        let hfe = on_side_0(&header_in_the_crc(&data_ending(1 - bit, 1), shared, 4));
        assert_eq!(given(&hfe)[3], Err(4), "there is no header of R 4");
        for number in 2..6 {
            assert_misread(&hfe, 3, &data_ending(bit, number));
            assert_done(&hfe, 3, &data_ending(1 - bit, number));
        }
    }
}

/// A second header of the rewritten sector itself: it would not give its new
/// bytes but 5 (§8.17).
#[test]
fn own_header_in_the_crc_arises() {
    let hfe = on_side_0(&header_in_the_crc(&data_ending(1, 1), 1, 3));
    assert_misread(&hfe, 3, &data_ending(0, 2));
    assert_done(&hfe, 3, &data_ending(1, 2));
}

/// The clock cell after the CRC makes a header, or breaks one, also where the
/// same bytes are written (§8.17).
#[test]
fn clock_cell_makes_or_breaks_a_header() {
    // A header from the CRC's last cell on has 1 for its second cell, as MFM
    // has; without it there is none.
    let data = data_ending(0, 1);
    let mut cells = header_in_the_crc(&data, 1, 4);
    cells[HEADER + 544 + FIELD] = 0;
    let hfe = on_side_0(&cells);
    assert_eq!(given(&hfe)[3], Err(4));
    assert_misread(&hfe, 3, &data);
    assert_done(&hfe, 3, &data_ending(1, 2));
    // From the third last cell on a header's cells 0, 1, 0 may be a CRC's. The
    // clock cell after two bits 0 is 1, and the header has 0 there: with any
    // bytes it is lost.
    let mut cells = header_in_the_crc(&data, 3, 4);
    let crc_end = HEADER + 544 + FIELD;
    cells[crc_end - 3..crc_end].copy_from_slice(&header(4)[..3]);
    let hfe = on_side_0(&cells);
    assert_eq!(given(&hfe)[3], Err(6));
    for number in 1..5 {
        assert_misread(&hfe, 3, &data_ending(0, number));
        assert_misread(&hfe, 3, &data_ending(1, number));
    }
}

/// A whole sector R 4 that begins within the data of R 3, whose CRC is wrong:
/// it is lost if R 3 is rewritten. If R 4 is, R 3 has other bytes and stays
/// wrong (§8.17).
#[test]
fn sector_that_begins_in_a_field() {
    let first = [header(3), field(&noise(1, 512))].concat();
    for at in [HEADER + RUN_AND_MARK, 1001, 5000, HEADER + FIELD - HEADER] {
        let second = [header(4), gap_cells(300), field(&noise(2, 512))].concat();
        let hfe = on_side_0(&filled([&first[..at], &second].concat()));
        assert_eq!(given(&hfe)[2], Err(7));
        assert!(given(&hfe)[3].is_ok());
        assert_misread(&hfe, 3, &noise(3, 512));
        assert_done(&hfe, 4, &noise(3, 512));
    }
}

/// Two tracks with the same units, each with a header before the one field: a
/// sector of another track gives something else (§8.17).
#[test]
fn field_of_two_tracks() {
    let data = noise(1, 512);
    let headers = overlapping(&header(3), &header_of([1, 0, 7, 2]));
    let mut hfe = on_side_0(&filled([headers, field(&data)].concat()));
    assert_done(&hfe, 3, &noise(2, 512));
    let entry = hfe[UNIT..UNIT + 4].to_vec();
    hfe[UNIT + 4..UNIT + 8].copy_from_slice(&entry);
    assert_misread(&hfe, 3, &noise(2, 512));
    assert_eq!(rewrite(&hfe, 1, 0, 7, &noise(2, 512)).0, MISREAD);
    assert_done(&hfe, 3, &data);
    assert_eq!(rewrite(&hfe, 1, 0, 7, &data).0, DONE);
}

/// Tracks that begin in another's later units, with and without a header of
/// theirs among the written cells (§8.17).
#[test]
fn track_that_begins_within_another() {
    for (chrn, expected) in [([9, 0, 2, 2], MISREAD), ([8, 0, 2, 2], DONE)] {
        // The field begins in the first unit of track 0 and has a header from
        // the second unit on.
        let mut cells = filled([gap_cells(400), header(3), field(&noise(1, 512))].concat());
        let second_unit = 256 * 8;
        cells[second_unit..second_unit + HEADER].copy_from_slice(&header_of(chrn));
        let side = pack_cells(&cells);
        let mut hfe = empty_tracks();
        move_track(&mut hfe, 0, &[side.clone(), side]);
        set_entry(&mut hfe, 1, 9, 3, 2 * 256 * 3);
        let (reply, after) = rewrite(&hfe, 0, 0, 3, &noise(2, 512));
        assert_eq!(reply, expected);
        // Side 1 has the same cells, and they stay.
        let written = with_data(&cells, 400 + HEADER + RUN_AND_MARK, &noise(2, 512));
        if expected == DONE {
            assert!(cells_of(&after, 0, 0) == written);
            assert!(cells_of(&after, 0, 1) == cells);
        }
    }
}
