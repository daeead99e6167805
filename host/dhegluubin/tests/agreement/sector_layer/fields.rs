//! Data fields: how far they may stand from the header, and what makes one.

use super::both::unpack;
use super::build::{track_0, TRACK_0_GOOD};
use super::side::{
    gap_cells, good_sectors, header_items, marked, plain, side_bytes, side_cells, Sector,
};
use reference::cells::pack_cells;
use reference::written::{item_cells, Item};

/// The shared reply for side 1 of track 0 with this stream of cells.
fn judged_cells(cells: &[u8]) -> [usize; 4] {
    let side_0 = side_bytes(&good_sectors(0, 0, 100));
    unpack(&track_0(&[side_0, pack_cells(cells)]))
}

/// The same with nine good sectors of which one is changed.
fn judged(r: usize, change: impl Fn(&mut Sector)) -> [usize; 4] {
    let mut sectors = good_sectors(0, 1, 200);
    change(&mut sectors[r - 1]);
    judged_cells(&side_cells(&sectors))
}

/// The run of a field begins at most 688 cells after the header (§4.4).
#[test]
fn gap_of_688_cells_and_of_689() {
    for r in [1, 5, 9] {
        for (gap, good) in [
            (0, true),
            (1, true),
            (15, true),
            (16, true),
            (17, true),
            (352, true),
            (687, true),
            (688, true),
            (689, false),
            (690, false),
            (704, false),
            (2000, false),
        ] {
            let expected = if good { TRACK_0_GOOD } else { [6, 0, 1, r] };
            let of_bytes = judged(r, |sector| sector.gap = gap_cells(gap));
            assert_eq!(of_bytes, expected, "gap of {gap} cells");
            let of_zeros = judged(r, |sector| sector.gap = vec![0; gap]);
            assert_eq!(of_zeros, expected, "gap of {gap} cells, all 0");
        }
    }
}

/// A run may begin at an odd place (§3.7 §4.4).
#[test]
fn gap_of_688_cells_at_odd_places() {
    for shift in [1, 2, 3, 8, 15] {
        for (gap, expected) in [(688, TRACK_0_GOOD), (689, [6, 0, 1, 1])] {
            let reply = judged(1, |sector| {
                sector.before = gap_cells(shift);
                sector.gap = gap_cells(gap);
            });
            assert_eq!(reply, expected);
        }
    }
}

/// Of four sync bytes the first three are the run (§4.4).
#[test]
fn four_sync_bytes() {
    for (syncs, expected) in [
        (0, [6, 0, 1, 6]),
        (1, [6, 0, 1, 6]),
        (2, [6, 0, 1, 6]),
        (3, TRACK_0_GOOD),
        (4, [6, 0, 1, 6]),
        (5, [6, 0, 1, 6]),
        (6, [6, 0, 1, 6]),
    ] {
        let reply = judged(6, |sector| sector.field_syncs = syncs);
        assert_eq!(reply, expected, "{syncs} sync bytes");
    }
}

#[test]
fn four_sync_bytes_of_which_the_first_is_no_sync() {
    // A1 with all its clocks before three sync bytes is an ordinary byte.
    let reply = judged(6, |sector| {
        sector.gap = [gap_cells(320), item_cells(&plain(&[0xA1]))].concat();
    });
    assert_eq!(reply, TRACK_0_GOOD);
}

/// No later run is tried (§4.4).
#[test]
fn first_run_decides() {
    let run = |mark| {
        [
            gap_cells(100),
            item_cells(&[vec![Item::Sync; 3], plain(&[mark])].concat()),
        ]
        .concat()
    };
    // Another mark, or FB with too few bytes after it before the field's
    // own run: then these are the data.
    for (mark, expected) in [
        (0xF8, [6, 0, 1, 2]),
        (0xFE, [6, 0, 1, 2]),
        (0x00, [6, 0, 1, 2]),
        (0xFB, [7, 0, 1, 2]),
    ] {
        let reply = judged(2, |sector| {
            sector.gap = [run(mark), gap_cells(64)].concat();
        });
        assert_eq!(reply, expected, "mark {mark:02X}");
    }
    // Two sync bytes are no run.
    let reply = judged(2, |sector| {
        let two = item_cells(&[Item::Sync; 2]);
        sector.gap = [gap_cells(101), two, gap_cells(64)].concat();
    });
    assert_eq!(reply, TRACK_0_GOOD);
}

#[test]
fn next_header_is_the_first_run() {
    // The field of sector 8 is missing; the next run, within reach, is that
    // of a header.
    let mut sectors = good_sectors(0, 1, 200);
    let mut cells = side_cells(&sectors[..7]);
    cells.extend(item_cells(&header_items([0, 1, 8, 2])));
    sectors[8].before = gap_cells(400);
    cells.extend(side_cells(&sectors[8..]));
    assert_eq!(judged_cells(&cells), [6, 0, 1, 8]);
}

#[test]
fn one_field_for_the_header_right_before_it() {
    // Two headers before one field: the first one's run is the second's.
    let reply = judged(2, |sector| {
        let first = item_cells(&header_items([0, 1, 10, 2]));
        sector.before = [gap_cells(64), first, gap_cells(32)].concat();
    });
    assert_eq!(reply, TRACK_0_GOOD);
}

/// A field needs its mark (§4.5) and a CRC that holds (§3.9).
#[test]
fn mark_and_every_bit_of_the_crc() {
    for mark in [0xF8, 0xFA, 0xFC, 0xFE, 0xA1, 0x00] {
        let reply = judged(4, |sector| sector.field_mark = mark);
        assert_eq!(reply, [6, 0, 1, 4], "mark {mark:02X}");
    }
    for bit in 0..16 {
        let reply = judged(4, |sector| sector.data_error = 1 << bit);
        assert_eq!(reply, [7, 0, 1, 4], "bit {bit}");
    }
}

#[test]
fn every_cell_of_the_sync_bytes() {
    let sectors = good_sectors(0, 1, 200);
    let good = side_cells(&sectors);
    let field = marked(3, 0xFB, &sectors[0].data, 0).len() * 16;
    let place = sectors[0].cells().len() - field;
    for cell in 0..48 {
        let mut cells = good.clone();
        cells[place + cell] ^= 1;
        assert_eq!(judged_cells(&cells), [6, 0, 1, 1], "cell {cell}");
    }
}

/// A field lies wholly within the side (§4.5).
#[test]
fn end_of_the_stream_after_a_field() {
    // Sector 9 is the last; its field's CRC ends with the stream, or some
    // cells after it. Side 0 is shorter.
    let mut short = good_sectors(0, 0, 100);
    short
        .iter_mut()
        .for_each(|sector| sector.before = gap_cells(64));
    let side_0 = side_bytes(&short);

    let mut sectors = good_sectors(0, 1, 200);
    sectors[0].before = Vec::new();
    let cells: Vec<u8> = sectors.iter().flat_map(Sector::cells).collect();
    let end = cells.len().next_multiple_of(8);
    assert!(end > 8 * side_0.len());
    for over in 0..=20 {
        let shift = gap_cells(end + over - cells.len());
        let mut shifted = [shift, cells.clone()].concat();
        shifted.truncate(end);
        let hfe = track_0(&[side_0.clone(), pack_cells(&shifted)]);
        let expected = if over == 0 {
            TRACK_0_GOOD
        } else {
            [6, 0, 1, 9]
        };
        assert_eq!(unpack(&hfe), expected, "{over} cells over");
    }
}
