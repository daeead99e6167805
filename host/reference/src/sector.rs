//! What one sector gives, judged alone.

use crate::field::{data_field, DataField, SECTOR_LEN};
use crate::header::{all_headers, find_header, search, Search, SectorId, SECTORS_PER_SIDE};
use crate::mfm::data_bytes;

/// Refusal: no header for the sector (§7.4).
pub const NO_HEADER: u8 = 4;

/// Refusal: two or more headers (§7.5).
pub const SEVERAL_HEADERS: u8 = 5;

/// Refusal: the data field is not present (§7.6).
pub const NO_DATA_FIELD: u8 = 6;

/// Refusal: the CRC of the data field does not hold (§7.7).
pub const WRONG_DATA_CRC: u8 = 7;

/// What a sector gives, judged alone: its 512 bytes, or the refusal's number.
pub type Given = Result<[u8; SECTOR_LEN], u8>;

/// What a sector in a side's stream gives, judged alone (§4.6). Damage within
/// the limits of §10.4 does not change its bytes.
pub fn read_sector(cells: &[u8], id: SectorId) -> Given {
    sector_after(cells, find_header(cells, id))
}

/// What the nine sectors of a side give, each judged alone (§4.6), in order
/// of R.
pub fn side_sectors(cells: &[u8], track: u8, side: u8) -> Vec<Given> {
    let headers = all_headers(cells);
    (1..=SECTORS_PER_SIDE)
        .map(|r| sector_after(cells, search(&headers, SectorId { track, side, r })))
        .collect()
}

/// What a sector gives when the search for its header has given `found` (§4.6).
fn sector_after(cells: &[u8], found: Search) -> Given {
    let (place, crc_holds) = present_field(cells, found)?;
    if !crc_holds {
        return Err(WRONG_DATA_CRC);
    }
    let mut data = [0; SECTOR_LEN];
    data.copy_from_slice(&data_bytes(cells, place, SECTOR_LEN));
    Ok(data)
}

/// Where the data of a sector begin, and whether their CRC holds, when the
/// search for its header has given `found`; or the refusal's number, 4 to 6.
pub fn present_field(cells: &[u8], found: Search) -> Result<(usize, bool), u8> {
    let header_place = match found {
        Search::One(place) => place,
        Search::Nothing => return Err(NO_HEADER),
        Search::Several => return Err(SEVERAL_HEADERS),
    };
    match data_field(cells, header_place) {
        DataField::Absent => Err(NO_DATA_FIELD),
        DataField::Present { place, crc_holds } => Ok((place, crc_holds)),
    }
}
