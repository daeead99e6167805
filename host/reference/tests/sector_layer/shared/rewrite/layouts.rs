//! Fields over the track table and over the unit of the HFE header.

use super::answer::rewrite;
use super::build::{set_entry, set_table_unit, UNIT};
use super::side::{gap_cells, plain};
use super::{
    cells_of, field, filled, given, given_with, header_of, lay, with_data, DONE, HEADER, MISREAD,
    RUN_AND_MARK,
};
use reference::cells::{buffer_cells, pack_cells};
use reference::hfe::written_header;
use reference::written::item_cells;
use support::noise::noise;

/// Where the table stands in these images.
const TABLE: usize = 3;

/// Tracks whose entries are in the second half of the table's unit, which is
/// side 1's where a track has that unit.
const FIRST_TRACK: usize = 64;

/// An image of so many bytes with a table of tracks that have no sectors.
fn image(len: usize) -> Vec<u8> {
    let mut hfe = written_header().to_vec();
    hfe.resize(len, 0);
    set_table_unit(&mut hfe, TABLE);
    for track in 0..80 {
        set_entry(&mut hfe, TABLE, track, 0, 2);
    }
    hfe
}

/// Two bytes that, again and again, are the cells of a good entry: unit and
/// length; of all such the one whose track ends first.
fn good_pattern() -> ([u8; 2], usize, usize) {
    let all = (0..=u16::MAX).filter_map(|word| {
        let pattern = word.to_be_bytes();
        let cells = item_cells(&plain(&[pattern, pattern].concat()));
        let entry = pack_cells(&cells[32..]);
        let number = |low: usize| usize::from(entry[low]) + 256 * usize::from(entry[low + 1]);
        let (unit, len) = (number(0), number(2));
        (len % 2 == 0).then_some((pattern, unit, len))
    });
    let end = |&(_, unit, len): &([u8; 2], usize, usize)| unit + len.div_ceil(UNIT);
    all.min_by_key(end).expect("a good entry")
}

/// An image in which track `own` has a sector 3 on side 1 whose data field is
/// over the entries of tracks 64 to 79; and its data, by which all of these
/// then name the image's last units. The field's old CRC is wrong.
struct OverTable {
    hfe: Vec<u8>,
    own: usize,
    data: Vec<u8>,
    /// The unit that the entries then name.
    unit: usize,
}

impl OverTable {
    fn new(own: usize) -> OverTable {
        let (pattern, unit, len) = good_pattern();
        let mut hfe = image(UNIT * (unit + len.div_ceil(UNIT)));
        let entries = hfe[UNIT * TABLE..UNIT * (TABLE + 1)].to_vec();
        let header = header_of([own as u8, 1, 3, 2]);
        let cells = [
            gap_cells(800),
            header,
            gap_cells(544),
            field(&noise(1, 512)),
        ]
        .concat();
        let cells = filled(cells);
        lay(&mut hfe, TABLE - 1, 1, &cells);
        hfe[UNIT * TABLE..UNIT * (TABLE + 1)].copy_from_slice(&entries);
        set_entry(&mut hfe, TABLE, own, TABLE - 1, len);
        let data = pattern.repeat(256);
        OverTable {
            hfe,
            own,
            data,
            unit,
        }
    }

    fn rewritten(&self, data: &[u8]) -> ([usize; 4], Vec<u8>) {
        rewrite(&self.hfe, self.own, 1, 3, data)
    }
}

/// A field over the table: entries are changed, and where by the new ones every
/// sector gives what it has to, that is done (§8.17).
#[test]
fn entries_that_are_good_and_name_no_sector() {
    let case = OverTable::new(0);
    let (reply, after) = case.rewritten(&case.data);
    assert_eq!(reply, DONE);
    let entries = |hfe: &[u8]| hfe[UNIT * TABLE..][4 * FIRST_TRACK..4 * 80].to_vec();
    let word = (case.unit as u16).to_le_bytes();
    assert!(entries(&case.hfe)
        .chunks(4)
        .all(|entry| entry[..2] == [0; 2]));
    assert!(entries(&after).chunks(4).all(|entry| entry[..2] == word));
    assert!(given(&after) == given_with(&case.hfe, 0, 1, 3, &case.data));
    let place = 800 + HEADER + 544 + RUN_AND_MARK;
    assert!(cells_of(&after, 0, 1) == with_data(&cells_of(&case.hfe, 0, 1), place, &case.data));
}

/// An entry that would not be good: of an odd length, or with a unit past the
/// image's end (§8.17).
#[test]
fn entries_that_are_not_good() {
    let mut case = OverTable::new(0);
    // All bits 0 have cells 1 and 0 in turn: the length is 5555 hex.
    assert_eq!(case.rewritten(&[0; 512]).0, MISREAD);
    assert_eq!(case.rewritten(&[0xFF; 512]).0, MISREAD);
    assert_eq!(case.rewritten(&case.data).0, DONE);
    case.hfe.pop();
    assert_eq!(case.rewritten(&case.data).0, MISREAD);
}

/// A good entry by which a track has a header that it had not (§8.17).
#[test]
fn entries_that_name_a_sector() {
    for (track, expected) in [(63, DONE), (64, MISREAD), (79, MISREAD), (80, DONE)] {
        let mut case = OverTable::new(0);
        let cells = filled(header_of([track, 0, 1, 2]));
        lay(&mut case.hfe, case.unit, 0, &cells);
        assert_eq!(case.rewritten(&case.data).0, expected, "track {track}");
    }
}

/// The entry of the sector's own track is among them. Its cells are written
/// where the old table has them, and the new one decides what is read: the new
/// data, or something else (§8.16 §8.17).
#[test]
fn own_entry() {
    for own in [64, 70, 79] {
        let mut case = OverTable::new(own);
        assert_eq!(case.rewritten(&case.data).0, MISREAD);
        // The cells that the side has now: it would give what it gave.
        let old = cells_of(&case.hfe, own, 1);
        lay(&mut case.hfe, case.unit, 1, &old);
        assert_eq!(case.rewritten(&case.data).0, MISREAD);
        let sector = |data: &[u8]| filled([header_of([own as u8, 1, 3, 2]), field(data)].concat());
        lay(&mut case.hfe, case.unit, 1, &sector(&noise(9, 512)));
        assert_eq!(case.rewritten(&case.data).0, MISREAD);
        lay(&mut case.hfe, case.unit, 1, &sector(&case.data));
        let (reply, after) = case.rewritten(&case.data);
        assert_eq!(reply, DONE);
        assert!(given(&after) == given_with(&case.hfe, own, 1, 3, &case.data));
    }
}

/// An image whose track 0 begins at unit 0, with a sector 3 whose header is at
/// this cell of a side.
fn over_header(side: usize, first: usize) -> (Vec<u8>, Vec<u8>) {
    let mut hfe = image(UNIT * 16);
    set_table_unit(&mut hfe, 10);
    for track in 0..80 {
        set_entry(&mut hfe, 10, track, 0, 2);
    }
    let header = header_of([0, side as u8, 3, 2]);
    let sector = filled([header, field(&noise(1, 512))].concat());
    let mut cells = cells_of_part(&hfe, side, first);
    cells.extend(sector);
    lay(&mut hfe, 0, side, &cells);
    set_entry(&mut hfe, 10, 0, 0, cells.len() / 4);
    (hfe, cells)
}

/// The first cells of a side that begins at unit 0.
fn cells_of_part(hfe: &[u8], side: usize, count: usize) -> Vec<u8> {
    let bytes = hfe[256 * side..256 * (side + 1)].to_vec();
    buffer_cells(&bytes)[..count].to_vec()
}

/// A field over the unit of the HFE header, on either side, is written like
/// any other (§8.16). Its data begin 224 cells after its header does, 28 bytes
/// of the side, so that the fields that are judged, bytes 0 to 25, are never
/// among them: a result has no other HFE header (§8.17).
#[test]
fn field_over_the_header_unit() {
    assert_eq!((HEADER + RUN_AND_MARK) / 8, 28);
    for (side, first) in [(0, 26 * 8), (0, 27 * 8), (0, 100 * 8), (1, 0), (1, 8)] {
        let (hfe, cells) = over_header(side, first);
        let data = noise(2, 512);
        let (reply, after) = rewrite(&hfe, 0, side, 3, &data);
        assert_eq!(reply, DONE, "side {side}, cell {first}");
        assert!(after[..28] == hfe[..28], "the header's own bytes");
        assert!(after[28..UNIT] != hfe[28..UNIT], "its unit is written to");
        let written = with_data(&cells, first + HEADER + RUN_AND_MARK, &data);
        assert!(cells_of(&after, 0, side) == written);
    }
}

/// The sector's header cannot stand where the HFE header does: then that is
/// wrong, and its field is never looked for (§8.15).
#[test]
fn sector_header_over_the_hfe_header() {
    for first in [0, 8, 25 * 8 - HEADER] {
        let (hfe, _) = over_header(0, first);
        assert_eq!(rewrite(&hfe, 0, 0, 3, &[0; 512]).0[0], 2, "cell {first}");
    }
}
