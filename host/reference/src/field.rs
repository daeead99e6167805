//! The data field that follows a header. The field may begin at a cell place of either parity,
//! whatever the header's is.

use crate::crc::crc_of_field;
use crate::header::{crc_at, HEADER_CELLS, SYNC_RUN_CELLS};
use crate::mfm::{data_byte, data_bytes, is_three_sync, CELLS_PER_BYTE};

/// The mark of a data field (§4.5).
pub const DATA_MARK: u8 = 0xFB;

/// Bytes of data in a sector (§1.1).
pub const SECTOR_LEN: usize = 512;

/// Most cells between the end of the header's CRC and the first sync byte
/// of its data field (§4.4).
pub const GAP_LIMIT: usize = 688;

/// What a header has for a data field.
#[derive(Clone, Copy, Debug, PartialEq, Eq)]
pub enum DataField {
    /// The field is there.
    Present {
        /// Cell place of the first of the 512 data bytes.
        place: usize,
        /// Whether the CRC after them holds.
        crc_holds: bool,
    },
    /// No sync run within the gap, another mark at the first one, or the
    /// stream ends too soon.
    Absent,
}

/// Where the first run of three sync bytes begins, from the first cell after
/// the header's CRC to 688 cells after it, both included (§4.4).
pub fn field_sync(cells: &[u8], header_place: usize) -> Option<usize> {
    let header_end = header_place + HEADER_CELLS;
    (header_end..=header_end + GAP_LIMIT).find(|&place| is_three_sync(cells, place))
}

/// The data field of the header that begins at `header_place` (§4.5); with
/// detectable damage it is not present or its CRC does not hold (§10.3).
///
/// Only the first sync run counts (§4.4): if its mark is not the data mark (a
/// fourth sync byte is none either), later runs are not tried.
pub fn data_field(cells: &[u8], header_place: usize) -> DataField {
    let Some(sync_place) = field_sync(cells, header_place) else {
        return DataField::Absent;
    };
    let mark_place = sync_place + SYNC_RUN_CELLS;
    let place = mark_place + CELLS_PER_BYTE;
    let crc_place = place + SECTOR_LEN * CELLS_PER_BYTE;
    let end = crc_place + 2 * CELLS_PER_BYTE;

    if data_byte(cells, mark_place) != DATA_MARK || end > cells.len() {
        return DataField::Absent;
    }
    let data = data_bytes(cells, place, SECTOR_LEN);
    let crc_holds = crc_at(cells, crc_place) == crc_of_field(DATA_MARK, &data);
    DataField::Present { place, crc_holds }
}
