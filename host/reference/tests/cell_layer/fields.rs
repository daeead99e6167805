//! Data fields (§4.4, §4.5, §4.6).

use crate::build::{byte_items, field, gap, header, header_items, id, join, marked, noise_sector};
use reference::crc::crc_of_field;
use reference::field::{data_field, DataField};
use reference::header::{SectorId, HEADER_CELLS};
use reference::sector::read_sector;
use reference::written::{item_cells, Item};

const SECTOR: SectorId = SectorId {
    track: 12,
    side: 1,
    r: 4,
};

/// A header of the test sector, then these pieces.
fn after_header(pieces: &[&[u8]]) -> Vec<u8> {
    join(&[&header(SECTOR), &join(pieces)])
}

/// A sector's bytes begin 64 cells after the run of its field (§4.6).
#[test]
fn field_right_after_the_header() {
    let data = noise_sector(10);
    let cells = after_header(&[&field(&data)]);
    assert_eq!(read_sector(&cells, SECTOR), Ok(data));
    let present = DataField::Present {
        place: HEADER_CELLS + 64,
        crc_holds: true,
    };
    assert_eq!(data_field(&cells, 0), present);
}

#[test]
fn header_and_field_of_any_parity() {
    let data = noise_sector(11);
    for before in [0, 1, 2, 3] {
        for between in [0, 1, 2, 3, 17, 352, 353] {
            let cells = join(&[
                &vec![0; before],
                &header(SECTOR),
                &vec![0; between],
                &field(&data),
            ]);
            assert_eq!(read_sector(&cells, SECTOR), Ok(data));
        }
    }
}

/// The run begins at most 688 cells after the header (§4.4).
#[test]
fn gap_of_688_cells_is_the_most() {
    let data = noise_sector(12);
    for shift in [0, 1] {
        for (distance, expected) in [
            (687, Ok(data)),
            (688, Ok(data)),
            (689, Err(6)),
            (690, Err(6)),
        ] {
            let cells = join(&[
                &vec![0; shift],
                &header(SECTOR),
                &vec![0; distance],
                &field(&data),
            ]);
            assert_eq!(read_sector(&cells, SECTOR), expected, "{distance} cells");
        }
    }
}

/// Without a run the field is not present (§4.5).
#[test]
fn no_sync_run_at_all() {
    assert_eq!(read_sector(&after_header(&[]), SECTOR), Err(6));
    assert_eq!(read_sector(&after_header(&[&gap(700)]), SECTOR), Err(6));
    assert_eq!(data_field(&header(SECTOR), 0), DataField::Absent);
}

/// A field needs its mark (§4.5).
#[test]
fn wrong_mark_at_the_first_run() {
    let data = noise_sector(13);
    for mark in [0xF8, 0xFE, 0xFA, 0x00, 0xFF] {
        let wrong = item_cells(&marked(3, mark, &data, 0));
        assert_eq!(read_sector(&after_header(&[&wrong]), SECTOR), Err(6));
    }
}

/// No later run is tried (§4.4).
#[test]
fn later_run_is_not_tried() {
    let data = noise_sector(14);
    let mut stray = vec![Item::Sync; 3];
    stray.extend(byte_items(&[0xF8]));
    let cells = after_header(&[&gap(2), &item_cells(&stray), &gap(2), &field(&data)]);
    assert_eq!(read_sector(&cells, SECTOR), Err(6));
}

#[test]
fn two_sync_bytes_are_no_run() {
    let data = noise_sector(15);
    let two = item_cells(&marked(2, 0xFB, &data, 0));
    assert_eq!(read_sector(&after_header(&[&gap(2), &two]), SECTOR), Err(6));

    let stray = item_cells(&[Item::Sync; 2]);
    let cells = after_header(&[&gap(2), &stray, &gap(2), &field(&data)]);
    assert_eq!(read_sector(&cells, SECTOR), Ok(data));
}

#[test]
fn four_sync_bytes() {
    let data = noise_sector(16);
    for syncs in [4, 5, 6, 7] {
        let many = item_cells(&marked(syncs, 0xFB, &data, 0));
        let cells = after_header(&[&gap(2), &many]);
        assert_eq!(read_sector(&cells, SECTOR), Err(6), "{syncs} sync bytes");
    }
}

/// A sector on the disk whose header CRC ends with the byte A1.
fn sector_with_crc_ending_in_a1() -> SectorId {
    for track in 0..80 {
        for r in 1..=9 {
            if crc_of_field(0xFE, &[track, 0, r, 2]) & 0xFF == 0xA1 {
                return id(track, 0, r);
            }
        }
    }
    panic!("no such sector");
}

/// Such a sector's header with the last CRC byte in the cells of a sync byte.
fn header_ending_in_sync(sector: SectorId) -> Vec<u8> {
    let mut items = header_items([sector.track, sector.side, sector.r, 2]);
    assert_eq!(items.last(), Some(&Item::Byte(0xA1)));
    *items.last_mut().unwrap() = Item::Sync;
    item_cells(&items)
}

#[test]
fn run_that_begins_inside_the_header_is_not_its_field() {
    let data = noise_sector(17);
    let sector = sector_with_crc_ending_in_a1();
    let two_more = item_cells(&marked(2, 0xFB, &data, 0));
    let cells = join(&[&header_ending_in_sync(sector), &two_more]);
    assert_eq!(read_sector(&cells, sector), Err(6));

    let cells = join(&[&header_ending_in_sync(sector), &field(&data)]);
    assert_eq!(read_sector(&cells, sector), Ok(data));
}

/// A field that is present and whose CRC does not hold gives 7 (§4.6 §7.7).
#[test]
fn wrong_data_crc() {
    let data = noise_sector(18);
    for bit in 0..16 {
        let wrong = item_cells(&marked(3, 0xFB, &data, 1 << bit));
        let cells = after_header(&[&gap(22), &wrong]);
        assert_eq!(read_sector(&cells, SECTOR), Err(7));
        let present = DataField::Present {
            place: HEADER_CELLS + 22 * 16 + 64,
            crc_holds: false,
        };
        assert_eq!(data_field(&cells, 0), present);
    }
}

#[test]
fn any_changed_data_bit_is_noticed() {
    let data = noise_sector(19);
    let right = after_header(&[&field(&data)]);
    let start = HEADER_CELLS + 64;
    for place in (start + 1..right.len()).step_by(2 * 101) {
        let mut cells = right.clone();
        cells[place] ^= 1;
        assert_eq!(read_sector(&cells, SECTOR), Err(7), "cell {place}");
    }
}

/// Clock cells of bytes are not looked at (§3.6).
#[test]
fn clocks_of_mark_and_data_do_not_matter() {
    let data = noise_sector(20);
    for clock in [0, 1] {
        let mut cells = field(&data);
        for place in (48..cells.len()).step_by(2) {
            cells[place] = clock;
        }
        let cells = after_header(&[&cells]);
        assert_eq!(read_sector(&cells, SECTOR), Ok(data));
    }
}

/// Data whose field CRC ends in 0 bits, so that cells missing at the end
/// would read as the right ones.
fn data_with_crc_ending_in_zeros() -> [u8; 512] {
    let mut data = noise_sector(21);
    while crc_of_field(0xFB, &data) & 0x0F != 0 {
        data[511] = data[511].wrapping_add(1);
    }
    data
}

/// A field lies wholly within the side (§4.5).
#[test]
fn field_cut_by_the_streams_end() {
    for data in [noise_sector(22), data_with_crc_ending_in_zeros()] {
        let cells = after_header(&[&[1], &field(&data)]);
        assert_eq!(read_sector(&cells, SECTOR), Ok(data));
        for missing in [1, 2, 3, 8, 16, 32, 33, 4000, 8223, 8224, 8240, 8241] {
            let cut = &cells[..cells.len() - missing];
            assert_eq!(read_sector(cut, SECTOR), Err(6), "{missing} missing");
        }
    }
}

#[test]
fn next_header_is_the_first_run() {
    // The sector has no field; the next sector's header comes within reach.
    let data = noise_sector(23);
    let next = id(12, 1, 5);
    let cells = after_header(&[&gap(5), &header(next), &gap(5), &field(&data)]);
    assert_eq!(read_sector(&cells, SECTOR), Err(6));
    assert_eq!(read_sector(&cells, next), Ok(data));
}
