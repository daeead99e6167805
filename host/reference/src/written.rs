//! A side as it is written: its bytes and marks, and their cells.

use crate::crc::crc_of_field;
use crate::field::{DATA_MARK, SECTOR_LEN};
use crate::header::{HEADER_MARK, SECTORS_PER_SIDE, SIZE_CODE};
use crate::mfm::{encode_byte, word_cells, INDEX_BYTE, INDEX_CELLS, SYNC_BYTE, SYNC_CELLS};

/// Items of a written side, each of 16 cells (§5.2).
pub const SIDE_ITEMS: usize = 6250;

/// Bytes of data on a side: its nine sectors.
pub const SIDE_DATA_LEN: usize = SECTORS_PER_SIDE as usize * SECTOR_LEN;

/// The byte that gaps are made of (§5.1 §5.2).
pub const GAP_BYTE: u8 = 0x4E;

/// The mark that follows the three index mark bytes.
pub const INDEX_MARK: u8 = 0xFC;

/// One byte of a side as it is written.
#[derive(Clone, Copy, Debug, PartialEq, Eq)]
pub enum Item {
    /// A byte by the ordinary rule.
    Byte(u8),
    /// A1 with a clock left out.
    Sync,
    /// C2 with a clock left out.
    Index,
}

impl Item {
    /// The data this item carries.
    pub fn data(self) -> u8 {
        match self {
            Item::Byte(byte) => byte,
            Item::Sync => SYNC_BYTE,
            Item::Index => INDEX_BYTE,
        }
    }

    /// Its cells when it follows the data bit `last_bit`; a mark has the
    /// same cells after any (§3.5).
    pub fn cells(self, last_bit: u8) -> [u8; 16] {
        match self {
            Item::Byte(byte) => encode_byte(byte, last_bit),
            Item::Sync => word_cells(SYNC_CELLS),
            Item::Index => word_cells(INDEX_CELLS),
        }
    }
}

/// The cells of items one after another; before the first
/// the last bit counts as 0 (§3.4).
pub fn item_cells(items: &[Item]) -> Vec<u8> {
    let mut cells = Vec::new();
    let mut last_bit = 0;
    for item in items {
        cells.extend(item.cells(last_bit));
        last_bit = item.data() & 1;
    }
    cells
}

fn repeat(item: Item, count: usize) -> Vec<Item> {
    vec![item; count]
}

fn bytes(bytes: &[u8]) -> Vec<Item> {
    bytes.iter().map(|&byte| Item::Byte(byte)).collect()
}

/// The mark, the bytes after it and their CRC, after three sync bytes (§3.9).
fn marked_items(mark: u8, body: &[u8]) -> Vec<Item> {
    [
        repeat(Item::Sync, 3),
        bytes(&[mark]),
        bytes(body),
        bytes(&crc_of_field(mark, body).to_be_bytes()),
    ]
    .concat()
}

/// What stands before the first sector, with the index mark (§5.2).
pub fn lead_items() -> Vec<Item> {
    [
        repeat(Item::Byte(GAP_BYTE), 80),
        repeat(Item::Byte(0), 12),
        repeat(Item::Index, 3),
        bytes(&[INDEX_MARK]),
        repeat(Item::Byte(GAP_BYTE), 50),
    ]
    .concat()
}

/// One sector, header and data field, with the gaps that belong to it (§5.1).
pub fn sector_items(track: u8, side: u8, r: u8, data: &[u8; SECTOR_LEN]) -> Vec<Item> {
    [
        repeat(Item::Byte(0), 12),
        marked_items(HEADER_MARK, &[track, side, r, SIZE_CODE]),
        repeat(Item::Byte(GAP_BYTE), 22),
        repeat(Item::Byte(0), 12),
        marked_items(DATA_MARK, data),
        repeat(Item::Byte(GAP_BYTE), 84),
    ]
    .concat()
}

/// The 6,250 items of a side whose sectors, R = 1 first, hold `data` (§5.2).
pub fn side_items(track: u8, side: u8, data: &[u8; SIDE_DATA_LEN]) -> Vec<Item> {
    let mut items = lead_items();
    for r in 1..=SECTORS_PER_SIDE {
        let start = (r as usize - 1) * SECTOR_LEN;
        let mut sector = [0; SECTOR_LEN];
        sector.copy_from_slice(&data[start..start + SECTOR_LEN]);
        items.extend(sector_items(track, side, r, &sector));
    }
    while items.len() < SIDE_ITEMS {
        items.push(Item::Byte(GAP_BYTE));
    }
    items
}

/// The 100,000 cells of such a side.
pub fn written_side_cells(track: u8, side: u8, data: &[u8; SIDE_DATA_LEN]) -> Vec<u8> {
    item_cells(&side_items(track, side, data))
}
