//! Headers of a sector: where they may stand, what makes one, and how many.

use super::both::unpack;
use super::build::{track_0, TRACK_0_GOOD};
use super::side::{gap_cells, good_sectors, header_items, plain, side_bytes, side_cells, Sector};
use reference::cells::pack_cells;
use reference::written::{item_cells, Item};

/// The shared reply for side 0 of track 0 with this stream of cells.
fn judged_cells(cells: &[u8]) -> [usize; 4] {
    let side_1 = side_bytes(&good_sectors(0, 1, 200));
    unpack(&track_0(&[pack_cells(cells), side_1]))
}

fn judged(sectors: &[Sector]) -> [usize; 4] {
    judged_cells(&side_cells(sectors))
}

/// Nine good sectors of which one is changed.
fn changed(r: usize, change: impl Fn(&mut Sector)) -> Vec<Sector> {
    let mut sectors = good_sectors(0, 0, 100);
    change(&mut sectors[r - 1]);
    sectors
}

/// A header may begin at any cell place (§3.7 §4.3).
#[test]
fn at_any_cell_place() {
    for shift in 0..=33 {
        let sectors = changed(1, |sector| sector.before = gap_cells(shift));
        assert_eq!(judged(&sectors), TRACK_0_GOOD, "shift {shift}");
    }
}

#[test]
fn each_sector_at_its_own_parity() {
    let mut sectors = good_sectors(0, 0, 100);
    for (index, sector) in sectors.iter_mut().enumerate() {
        sector.before = gap_cells(100 + 7 * index);
        sector.gap = gap_cells(500 + 13 * index);
    }
    assert_eq!(judged(&sectors), TRACK_0_GOOD);
}

#[test]
fn in_any_order() {
    let mut sectors = good_sectors(0, 0, 100);
    sectors.reverse();
    assert_eq!(judged(&sectors), TRACK_0_GOOD);
    sectors.swap(0, 5);
    assert_eq!(judged(&sectors), TRACK_0_GOOD);
}

#[test]
fn sync_bytes_before_it() {
    for (syncs, expected) in [
        (0, [4, 0, 0, 5]),
        (1, [4, 0, 0, 5]),
        (2, [4, 0, 0, 5]),
        (3, TRACK_0_GOOD),
        (4, TRACK_0_GOOD),
        (5, TRACK_0_GOOD),
        (11, TRACK_0_GOOD),
    ] {
        let sectors = changed(5, |sector| sector.header_syncs = syncs);
        assert_eq!(judged(&sectors), expected, "{syncs} sync bytes");
    }
}

/// Each cell of a run counts, clock cells included (§3.7).
#[test]
fn every_cell_of_the_sync_bytes() {
    let sectors = good_sectors(0, 0, 100);
    let good = side_cells(&sectors);
    let place = sectors[0].cells().len() + sectors[1].before.len();
    for cell in 0..48 {
        let mut cells = good.clone();
        cells[place + cell] ^= 1;
        assert_eq!(judged_cells(&cells), [4, 0, 0, 2], "cell {cell}");
    }
}

/// A header has its mark (§4.1), and
/// belongs to the sector that it names and to no other (§4.2).
#[test]
fn mark_and_numbers() {
    let wrong: [fn(&mut Sector); 9] = [
        |sector| sector.header_mark = 0xFF,
        |sector| sector.header_mark = 0xFC,
        |sector| sector.header[0] = 1,
        |sector| sector.header[1] = 1,
        |sector| sector.header[2] = 0,
        |sector| sector.header[2] = 10,
        |sector| sector.header[2] = 0xFF,
        |sector| sector.header[3] = 3,
        |sector| sector.header[3] = 0,
    ];
    for change in wrong {
        assert_eq!(judged(&changed(7, change)), [4, 0, 0, 7]);
    }
}

/// A CRC holds only if all its bits are right (§3.9).
#[test]
fn every_bit_of_the_crc() {
    for bit in 0..16 {
        let sectors = changed(9, |sector| sector.header_error = 1 << bit);
        assert_eq!(judged(&sectors), [4, 0, 0, 9], "bit {bit}");
    }
}

/// A header belongs to the sector that it names (§4.2).
#[test]
fn header_of_another_sector_is_one_too_many_there() {
    for (own, other) in [(5, 2), (2, 5)] {
        let sectors = changed(own, |sector| sector.header[2] = other);
        let expected = match own {
            5 => [5, 0, 0, 2],
            _ => [4, 0, 0, 2],
        };
        assert_eq!(judged(&sectors), expected);
    }
}

/// Nine good sectors with cells before sector 4.
fn with_before_4(items: &[Item]) -> Vec<Sector> {
    changed(4, |sector| {
        sector.before = [gap_cells(201), item_cells(items), gap_cells(333)].concat();
    })
}

/// Two headers that belong to one sector (§4.2 §7.5).
#[test]
fn two_headers() {
    for r in 1..=9 {
        let sectors = with_before_4(&header_items([0, 0, r, 2]));
        assert_eq!(judged(&sectors), [5, 0, 0, usize::from(r)]);
    }
    // Of no sector of this side.
    for other in [
        [1, 0, 4, 2],
        [0, 1, 4, 2],
        [0, 0, 0, 2],
        [0, 0, 10, 2],
        [0, 0, 4, 1],
    ] {
        let sectors = with_before_4(&header_items(other));
        assert_eq!(judged(&sectors), TRACK_0_GOOD);
    }
}

#[test]
fn three_headers_of_one_sector_and_two_of_a_higher() {
    let items = [
        header_items([0, 0, 6, 2]),
        header_items([0, 0, 3, 2]),
        header_items([0, 0, 3, 2]),
    ]
    .concat();
    assert_eq!(judged(&with_before_4(&items)), [5, 0, 0, 3]);
}

/// Places inside data fields are tried too (§4.3).
#[test]
fn header_inside_data() {
    let mut data = plain(&[0x11; 512]);
    data.splice(100..110, header_items([0, 0, 8, 2]));
    let sectors = changed(3, |sector| sector.data = data.clone());
    assert_eq!(judged(&sectors), [5, 0, 0, 8]);
    // The same bytes without sync marks are data like any other.
    let bytes: Vec<u8> = data.iter().map(|item| item.data()).collect();
    let sectors = changed(3, |sector| sector.data = plain(&bytes));
    assert_eq!(judged(&sectors), TRACK_0_GOOD);
}

/// Nothing is completed from the side's beginning (§3.2).
#[test]
fn end_of_the_stream_after_a_header() {
    // Only sector 1 stands there, from such a cell that its header ends
    // with the stream, or some cells after it.
    let header = item_cells(&header_items([0, 0, 1, 2]));
    for over in 0..=24 {
        let before = 800 - header.len() + over;
        let mut cells = [gap_cells(before), header.clone()].concat();
        // What is over stands at the side's beginning, where nothing looks
        // for it.
        let over_cells = cells.split_off(800);
        cells[..over].copy_from_slice(&over_cells);
        let expected = if over == 0 {
            [6, 0, 0, 1]
        } else {
            [4, 0, 0, 1]
        };
        assert_eq!(judged_short(&cells), expected, "{over} cells over");
    }
}

/// The shared reply for a side 0 that ends with these cells; side 1 is as
/// short.
fn judged_short(cells: &[u8]) -> [usize; 4] {
    let side = pack_cells(cells);
    assert_eq!(cells.len(), 8 * side.len());
    unpack(&track_0(&[side, Vec::new()]))
}
