//! One sector rewritten in an HFE image.

use super::{answer, build, recipe_answers, side, spoil};

mod layouts;
mod order;
pub mod random;
mod results;
mod vectors;
mod writing;

use answer::rewrite;
use build::{track_0, UNIT};
use reference::cells::{pack_cells, place_in_part};
use reference::crc::crc_of_field;
use reference::sector::{side_sectors, Given};
use reference::track_table::good_entry;
use reference::written::{item_cells, Item};
use side::{gap_cells, header_items, marked, plain};
use support::noise::noise;

/// Cells of a header, and of a field; the field's data begin after its run and
/// mark.
const HEADER: usize = 160;
const RUN_AND_MARK: usize = 64;

/// Cells of 512 bytes and their CRC, and of the whole field.
const WRITTEN: usize = 8224;
const FIELD: usize = RUN_AND_MARK + WRITTEN;

const DONE: [usize; 4] = [0; 4];
const MISREAD: [usize; 4] = [17, 0, 0, 0];

/// Cells of a header of track 0, side 0.
fn header(r: u8) -> Vec<u8> {
    header_of([0, 0, r, 2])
}

/// Cells of a header of any C, H, R, N.
fn header_of(chrn: [u8; 4]) -> Vec<u8> {
    item_cells(&header_items(chrn))
}

/// Cells of a field with these data and their CRC.
fn field(data: &[u8]) -> Vec<u8> {
    field_with(data, 0)
}

/// The same with a CRC that is wrong by these bits.
fn field_with(data: &[u8], error: u16) -> Vec<u8> {
    item_cells(&marked(3, 0xFB, &plain(data), error))
}

/// Data whose CRC's last bit is this one; several, by number.
fn data_ending(bit: u8, number: u32) -> Vec<u8> {
    let mut all = (100 * number..).map(|seed| noise(seed, 512));
    let is_right = |data: &Vec<u8>| (crc_of_field(0xFB, data) & 1) as u8 == bit;
    all.find(is_right).expect("every second one is right")
}

/// The cells with a gap after them, so that they fill bytes.
fn filled(mut cells: Vec<u8>) -> Vec<u8> {
    cells.extend(gap_cells(64 + (8 - cells.len() % 8) % 8));
    cells
}

/// An image whose track 0 has these cells on side 0. No other side has a
/// sector.
fn on_side_0(cells: &[u8]) -> Vec<u8> {
    assert_eq!(cells.len() % 8, 0, "cells that fill bytes");
    track_0(&[pack_cells(cells), vec![0; cells.len() / 8]])
}

/// The cells of a side by the image's own table.
fn cells_of(hfe: &[u8], track: usize, side: usize) -> Vec<u8> {
    let track = good_entry(hfe, track).expect("a good entry");
    track.side_cells(hfe, side)
}

/// Lays cells over a side of a track that begins at a unit.
fn lay(hfe: &mut [u8], unit: usize, side: usize, cells: &[u8]) {
    for (index, byte) in pack_cells(cells).into_iter().enumerate() {
        hfe[UNIT * unit + place_in_part(side, index)] = byte;
    }
}

/// What each sector of the image gives, judged alone (§4.6).
fn given(hfe: &[u8]) -> Vec<Given> {
    let sides = (0..160).map(|number| {
        let (track, side) = (number / 2, number % 2);
        side_sectors(&cells_of(hfe, track, side), track as u8, side as u8)
    });
    sides.flatten().collect()
}

/// What they have to give once one of them is rewritten (§8.17).
fn given_with(hfe: &[u8], track: usize, side: usize, r: usize, data: &[u8]) -> Vec<Given> {
    let mut expected = given(hfe);
    expected[18 * track + 9 * side + r - 1] = Ok(data.try_into().unwrap());
    expected
}

/// The cells with these data where a field has its own, from `place` on: the
/// bytes and their CRC as they follow FB and, if two or more cells are left,
/// the clock cell between the CRC's last bit and the next data cell (§8.16).
fn with_data(cells: &[u8], place: usize, data: &[u8]) -> Vec<u8> {
    let field = marked(3, 0xFB, &plain(data), 0);
    let last_bit = field.last().map_or(0, |item: &Item| item.data() & 1);
    let (before, rest) = cells.split_at(place);
    let mut after = rest[WRITTEN..].to_vec();
    if let [clock, bit, ..] = after.as_mut_slice() {
        *clock = u8::from((last_bit, *bit) == (0, 0));
    }
    [before, &item_cells(&field)[RUN_AND_MARK..], &after].concat()
}

/// Rewrites a sector of track 0, side 0, whose data begin at this cell place.
/// The image must then have the cells that it has to have, and no other byte
/// may be changed.
fn assert_writes(cells: &[u8], place: usize, r: usize, data: &[u8]) {
    let (reply, after) = rewrite(&on_side_0(cells), 0, 0, r, data);
    assert_eq!(reply, DONE);
    assert!(
        after == on_side_0(&with_data(cells, place, data)),
        "other cells than those of data, CRC and clock"
    );
}
