//! Streams for the tests, right ones and wrong ones.

use reference::crc::crc_of_field;
use reference::field::SECTOR_LEN;
use reference::header::SectorId;
use reference::written::{item_cells, Item};
pub use support::noise::noise;

pub fn noise_sector(seed: u32) -> [u8; SECTOR_LEN] {
    noise(seed, SECTOR_LEN).try_into().unwrap()
}

pub fn id(track: u8, side: u8, r: u8) -> SectorId {
    SectorId { track, side, r }
}

pub fn byte_items(bytes: &[u8]) -> Vec<Item> {
    bytes.iter().map(|&byte| Item::Byte(byte)).collect()
}

/// Sync bytes, mark, body, and the CRC changed by `crc_error`.
pub fn marked(syncs: usize, mark: u8, body: &[u8], crc_error: u16) -> Vec<Item> {
    let crc = crc_of_field(mark, body) ^ crc_error;
    [
        vec![Item::Sync; syncs],
        byte_items(&[mark]),
        byte_items(body),
        byte_items(&crc.to_be_bytes()),
    ]
    .concat()
}

/// A right header with any C, H, R, N.
pub fn header_items(chrn: [u8; 4]) -> Vec<Item> {
    marked(3, 0xFE, &chrn, 0)
}

/// Cells of a right header of a sector.
pub fn header(id: SectorId) -> Vec<u8> {
    item_cells(&header_items([id.track, id.side, id.r, 2]))
}

/// Cells of a right data field.
pub fn field(data: &[u8]) -> Vec<u8> {
    item_cells(&marked(3, 0xFB, data, 0))
}

/// Cells of a gap of `count` bytes 4E.
pub fn gap(count: usize) -> Vec<u8> {
    item_cells(&vec![Item::Byte(0x4E); count])
}

/// Pieces of cells one after another.
pub fn join(pieces: &[&[u8]]) -> Vec<u8> {
    pieces.concat()
}
