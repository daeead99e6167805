//! Sector headers: what stands at a cell place, and the search of a side.

use crate::crc::crc_of_field;
use crate::mfm::{data_byte, data_bytes, is_three_sync, CELLS_PER_BYTE};

/// The mark of a header (§4.1).
pub const HEADER_MARK: u8 = 0xFE;

/// The size code N of a 512-byte sector.
pub const SIZE_CODE: u8 = 2;

/// Sectors on a side, numbered R = 1 to this.
pub const SECTORS_PER_SIDE: u8 = 9;

/// Cells of three sync bytes.
pub const SYNC_RUN_CELLS: usize = 3 * CELLS_PER_BYTE;

/// Cells of a whole header: three sync bytes, the mark, C, H, R, N, CRC (§4.1).
pub const HEADER_CELLS: usize = (3 + 1 + 4 + 2) * CELLS_PER_BYTE;

/// Which sector is meant.
#[derive(Clone, Copy, Debug, PartialEq, Eq)]
pub struct SectorId {
    /// Track number.
    pub track: u8,
    /// Side number.
    pub side: u8,
    /// Sector number R.
    pub r: u8,
}

/// The four bytes of a header whose CRC holds.
#[derive(Clone, Copy, Debug, PartialEq, Eq)]
pub struct Header {
    /// Track the header names.
    pub c: u8,
    /// Side the header names.
    pub h: u8,
    /// Sector number.
    pub r: u8,
    /// Size code.
    pub n: u8,
}

impl Header {
    /// Whether this header belongs to the sector (§4.2). No header belongs to
    /// a sector whose R is not 1 to 9.
    pub fn belongs_to(&self, id: SectorId) -> bool {
        self.c == id.track
            && self.h == id.side
            && self.n == SIZE_CODE
            && self.r == id.r
            && (1..=SECTORS_PER_SIDE).contains(&id.r)
    }
}

/// What the search for a sector's header answers (§4.3).
#[derive(Clone, Copy, Debug, PartialEq, Eq)]
pub enum Search {
    /// Exactly one; its first sync byte begins at this cell place.
    One(usize),
    /// There is none.
    Nothing,
    /// There are two or more.
    Several,
}

/// The header whose first sync byte begins at `place`, if one stands there
/// whole before the stream's end and with a CRC that holds (§4.1).
pub fn header_at(cells: &[u8], place: usize) -> Option<Header> {
    if !is_three_sync(cells, place) || place + HEADER_CELLS > cells.len() {
        return None;
    }
    let mark_place = place + SYNC_RUN_CELLS;
    let body_place = mark_place + CELLS_PER_BYTE;
    let crc_place = body_place + 4 * CELLS_PER_BYTE;

    let mark = data_byte(cells, mark_place);
    let body = data_bytes(cells, body_place, 4);
    if mark != HEADER_MARK || crc_at(cells, crc_place) != crc_of_field(mark, &body) {
        return None;
    }
    Some(Header {
        c: body[0],
        h: body[1],
        r: body[2],
        n: body[3],
    })
}

/// The CRC stored at `place`, high byte first (§3.9).
pub fn crc_at(cells: &[u8], place: usize) -> u16 {
    let bytes = data_bytes(cells, place, 2);
    u16::from_be_bytes([bytes[0], bytes[1]])
}

/// Every header of the stream with its cell place. All places are tried, in
/// order, so a header inside a data field counts like any other (§4.3).
pub fn all_headers(cells: &[u8]) -> Vec<(usize, Header)> {
    let mut headers = Vec::new();
    for place in 0..cells.len() {
        if let Some(header) = header_at(cells, place) {
            headers.push((place, header));
        }
    }
    headers
}

/// Looks for the sector's header among the headers of its side (§4.3).
pub fn search(headers: &[(usize, Header)], id: SectorId) -> Search {
    let mut places = Vec::new();
    for (place, header) in headers {
        if header.belongs_to(id) {
            places.push(*place);
        }
    }
    match places.as_slice() {
        [] => Search::Nothing,
        [place] => Search::One(*place),
        _ => Search::Several,
    }
}

/// Looks for the sector's header at every cell place of the stream.
pub fn find_header(cells: &[u8], id: SectorId) -> Search {
    search(&all_headers(cells), id)
}
