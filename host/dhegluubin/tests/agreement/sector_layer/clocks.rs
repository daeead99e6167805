//! Clock cells count only inside sync bytes.

use super::both::unpack;
use super::build::{track_0, TRACK_0_GOOD};
use super::side::{good_sectors, side_bytes, side_cells, Sector};
use reference::cells::pack_cells;

/// Cells of the parts of a sector after `before`: header and field with
/// their sync bytes, and the gap between.
const HEADER: usize = 10 * 16;
const SYNCS: usize = 3 * 16;

/// Whether a cell of the sector, counted from its header, is in a sync byte.
fn is_in_sync(sector: &Sector, cell: usize) -> bool {
    let field = HEADER + sector.gap.len();
    cell < SYNCS || (field..field + SYNCS).contains(&cell)
}

/// Sets every clock cell of headers and fields, outside sync bytes.
fn with_clocks(sectors: &[Sector], clock: fn(usize) -> u8) -> Vec<u8> {
    let mut cells = Vec::new();
    for sector in sectors {
        let mut own = sector.cells();
        let start = sector.before.len();
        for cell in (0..own.len() - start).step_by(2) {
            let in_gap = (HEADER..HEADER + sector.gap.len()).contains(&cell);
            if !is_in_sync(sector, cell) && !in_gap {
                own[start + cell] = clock(cell);
            }
        }
        cells.extend(own);
    }
    cells
}

/// A byte is read from its data cells alone (§3.6).
#[test]
fn clocks_outside_sync_bytes_do_not_count() {
    let sides = [0, 1].map(|side| good_sectors(0, side, 77));
    let clocks: [fn(usize) -> u8; 3] = [|_| 0, |_| 1, |cell| (cell / 6 % 2) as u8];
    for clock in clocks {
        let hfe = track_0(&[0, 1].map(|side| pack_cells(&with_clocks(&sides[side], clock))));
        assert_eq!(unpack(&hfe), TRACK_0_GOOD);
    }
}

#[test]
fn single_cells_along_a_sector() {
    let sectors = good_sectors(0, 0, 77);
    let good = side_cells(&sectors);
    let side_1 = side_bytes(&good_sectors(0, 1, 78));
    let start = sectors[0].before.len();
    let field = HEADER + sectors[0].gap.len();
    let len = sectors[0].cells().len() - start;
    let about_marks = |cell: usize| cell < 170 || (field..field + 70).contains(&cell);
    for cell in (0..len).filter(|&cell| about_marks(cell) || cell % 122 < 2) {
        let mut cells = good.clone();
        cells[start + cell] ^= 1;
        let is_data = cell % 2 == 1;
        let expected = match cell {
            0..HEADER if is_in_sync(&sectors[0], cell) || is_data => [4, 0, 0, 1],
            _ if cell < field => TRACK_0_GOOD,
            _ if is_in_sync(&sectors[0], cell) => [6, 0, 0, 1],
            _ if is_data && cell < field + SYNCS + 16 => [6, 0, 0, 1],
            _ if is_data => [7, 0, 0, 1],
            _ => TRACK_0_GOOD,
        };
        let hfe = track_0(&[pack_cells(&cells), side_1.clone()]);
        assert_eq!(unpack(&hfe), expected, "cell {cell}");
    }
}
