//! A written side (§5.1, §5.2).

use crate::build::{id, noise};
use reference::cells::{buffer_cells, pack_cells, side_cells, UNIT_LEN};
use reference::field::SECTOR_LEN;
use reference::header::{find_header, Search};
use reference::sector::read_sector;
use reference::written::{side_items, written_side_cells, Item, SIDE_DATA_LEN};

fn side_noise(seed: u32) -> [u8; SIDE_DATA_LEN] {
    noise(seed, SIDE_DATA_LEN).try_into().unwrap()
}

fn sector_data(data: &[u8; SIDE_DATA_LEN], r: u8) -> [u8; SECTOR_LEN] {
    let start = (r as usize - 1) * SECTOR_LEN;
    data[start..start + SECTOR_LEN].try_into().unwrap()
}

/// Takes `count` equal items from the front.
fn take(rest: &mut &[Item], item: Item, count: usize) {
    let (front, back) = rest.split_at(count);
    assert!(front.iter().all(|&seen| seen == item), "{item:?} x {count}");
    *rest = back;
}

/// Takes these ordinary bytes from the front.
fn take_bytes(rest: &mut &[Item], bytes: &[u8]) {
    for &byte in bytes {
        take(rest, Item::Byte(byte), 1);
    }
}

/// Each part of a written sector (§5.1) and side (§5.2).
#[test]
fn layout_of_a_side() {
    let data = side_noise(30);
    let items = side_items(79, 1, &data);
    assert_eq!(items.len(), 6250);
    let rest = &mut items.as_slice();
    take(rest, Item::Byte(0x4E), 80);
    take(rest, Item::Byte(0x00), 12);
    take(rest, Item::Index, 3);
    take_bytes(rest, &[0xFC]);
    take(rest, Item::Byte(0x4E), 50);
    for r in 1..=9 {
        take(rest, Item::Byte(0x00), 12);
        take(rest, Item::Sync, 3);
        take_bytes(rest, &[0xFE, 79, 1, r, 2]);
        *rest = &rest[2..];
        take(rest, Item::Byte(0x4E), 22);
        take(rest, Item::Byte(0x00), 12);
        take(rest, Item::Sync, 3);
        take_bytes(rest, &[0xFB]);
        take_bytes(rest, &sector_data(&data, r));
        *rest = &rest[2..];
        take(rest, Item::Byte(0x4E), 84);
    }
    take(rest, Item::Byte(0x4E), 182);
    assert!(rest.is_empty());
}

#[test]
fn header_crc_is_high_byte_first() {
    let items = side_items(0, 0, &side_noise(31));
    let crc_place = 146 + 12 + 3 + 5;
    assert_eq!(
        items[crc_place..crc_place + 2],
        [Item::Byte(0xCA), Item::Byte(0x6F)]
    );
}

/// A side has 6,250 bytes, so 12,500 bytes of cells (§5.2).
#[test]
fn side_has_12500_cell_bytes() {
    let cells = written_side_cells(0, 0, &side_noise(32));
    assert_eq!(cells.len(), 100_000);
    assert!(cells.iter().all(|&cell| cell < 2));
    let bytes = pack_cells(&cells);
    assert_eq!(bytes.len(), 12_500);
    assert_eq!(bytes[..4], [0x49, 0x2A, 0x49, 0x2A]);
    // 00 after 4E, the index marks, FC, then 4E.
    assert_eq!(bytes[160..162], [0x55, 0x55]);
    assert_eq!(bytes[184..190], [0x4A, 0x24, 0x4A, 0x24, 0x4A, 0x24]);
    assert_eq!(bytes[190..194], [0xAA, 0x4A, 0x49, 0x2A]);
    // The first header's sync bytes and FE.
    assert_eq!(bytes[316..322], [0x22, 0x91, 0x22, 0x91, 0x22, 0x91]);
    assert_eq!(bytes[322..324], [0xAA, 0x2A]);
}

#[test]
fn ones_are_two_to_four_cells_apart() {
    let cells = written_side_cells(33, 1, &side_noise(33));
    let ones: Vec<usize> = (0..cells.len()).filter(|&p| cells[p] == 1).collect();
    for pair in ones.windows(2) {
        assert!((2..=4).contains(&(pair[1] - pair[0])), "at {}", pair[0]);
    }
}

#[test]
fn headers_stand_where_they_were_written() {
    let cells = written_side_cells(8, 1, &side_noise(34));
    for r in 1..=9 {
        let place = 16 * (146 + 658 * (usize::from(r) - 1) + 12);
        assert_eq!(find_header(&cells, id(8, 1, r)), Search::One(place));
    }
}

#[test]
fn round_trip_of_a_side() {
    for (track, side) in [(0, 0), (79, 1)] {
        let data = side_noise(35 + u32::from(track));
        let packed = pack_cells(&written_side_cells(track, side, &data));
        let cells = buffer_cells(&packed);
        for r in 1..=9 {
            assert_eq!(
                read_sector(&cells, id(track, side, r)),
                Ok(sector_data(&data, r))
            );
        }
        assert_eq!(read_sector(&cells, id(track, side, 0)), Err(4));
        assert_eq!(read_sector(&cells, id(track, side, 10)), Err(4));
        assert_eq!(read_sector(&cells, id(track, 1 - side, 1)), Err(4));
        assert_eq!(read_sector(&cells, id(track + 1, side, 1)), Err(4));
    }
}

/// A track's part from the cell bytes of both sides, unused bytes FF.
fn part_of(side_0: &[u8], side_1: &[u8]) -> Vec<u8> {
    let mut part = Vec::new();
    for (half_0, half_1) in side_0.chunks(256).zip(side_1.chunks(256)) {
        let mut unit = vec![0xFF; UNIT_LEN];
        unit[..half_0.len()].copy_from_slice(half_0);
        unit[256..256 + half_1.len()].copy_from_slice(half_1);
        part.extend(unit);
    }
    part
}

#[test]
fn round_trip_through_a_tracks_part() {
    let data = [side_noise(50), side_noise(51)];
    let written = [0, 1].map(|side| written_side_cells(20, side as u8, &data[side]));
    let part = part_of(&pack_cells(&written[0]), &pack_cells(&written[1]));
    assert_eq!(part.len(), 49 * 512);
    for side in [0, 1] {
        let cells = side_cells(&part, 25_000, side);
        assert_eq!(cells, written[side]);
        for r in 1..=9 {
            let read = read_sector(&cells, id(20, side as u8, r));
            assert_eq!(read, Ok(sector_data(&data[side], r)));
        }
    }
}

#[test]
fn shifted_side_reads_the_same() {
    let data = side_noise(60);
    let mut cells = written_side_cells(1, 0, &data);
    cells.insert(0, 1);
    for r in [1, 9] {
        assert_eq!(read_sector(&cells, id(1, 0, r)), Ok(sector_data(&data, r)));
    }
}
