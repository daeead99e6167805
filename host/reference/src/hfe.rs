//! The header of an HFE image.

use crate::cells::UNIT_LEN;
use crate::geometry::{SIDES, TRACKS};
use crate::reply::Refusal;

/// Fewest bytes of an HFE image that is read (§7.1).
pub const SHORTEST: usize = 1024;

/// The letters that an HFE image of version 1 begins with (§2.2).
pub const SIGNATURE: [u8; 8] = *b"HXCPICFE";

/// The letters that one of version 3 begins with (§2.2).
pub const SIGNATURE_3: [u8; 8] = *b"HXCHFEV3";

/// Thousands of bits a second.
pub const BIT_RATE: u16 = 250;

/// What unused bytes hold (§5.5), and switches that are off.
pub const UNUSED: u8 = 0xFF;

/// Offset of the track table's place in the header.
const TABLE_FIELD: usize = 18;

/// The two bytes at `offset` as a number, low byte first (§2.1).
pub fn word_at(hfe: &[u8], offset: usize) -> usize {
    usize::from(u16::from_le_bytes([hfe[offset], hfe[offset + 1]]))
}

/// Where the track table begins: at a unit (§2.1).
pub fn table_start(hfe: &[u8]) -> usize {
    UNIT_LEN * word_at(hfe, TABLE_FIELD)
}

/// The versions that are read (§2.2).
#[derive(Clone, Copy, Debug, PartialEq, Eq)]
pub enum Version {
    /// All bytes of a side give cells.
    One,
    /// Codes may stand among them.
    Three,
}

/// The version by an image's letters, if they are those of either (§2.2).
fn version(hfe: &[u8]) -> Option<Version> {
    match hfe[0..8].try_into() {
        Ok(SIGNATURE) => Some(Version::One),
        Ok(SIGNATURE_3) => Some(Version::Three),
        _ => None,
    }
}

/// Judges the header of an image that is read: the letters, of either version,
/// and the fields after them. Refusal 2 at the first wrong one (§7.2).
pub fn judge_header(hfe: &[u8]) -> Result<Version, Refusal> {
    let version = version(hfe).ok_or(Refusal::HfeHeader(0))?;
    judge_fields(hfe)?;
    Ok(version)
}

/// The same for an image that is rewritten, of which version 1 alone has the
/// right letters (§8.15).
pub fn judge_rewritten_header(hfe: &[u8]) -> Result<(), Refusal> {
    match version(hfe) {
        Some(Version::One) => judge_fields(hfe),
        _ => Err(Refusal::HfeHeader(0)),
    }
}

/// Judges the revision (§2.2) and the other fields (§2.3), in order.
///
/// The byte after a switch (23 after 22, 25 after 24) is judged only where
/// the switch is 00, which asks for another encoding.
fn judge_fields(hfe: &[u8]) -> Result<(), Refusal> {
    let is_switch = |byte: u8| byte == 0x00 || byte == 0xFF;
    let fields = [
        (8, hfe[8] == 0),
        (9, usize::from(hfe[9]) >= TRACKS),
        (10, usize::from(hfe[10]) == SIDES),
        (11, hfe[11] == 0),
        (12, word_at(hfe, 12) == usize::from(BIT_RATE)),
        (TABLE_FIELD, word_at(hfe, TABLE_FIELD) >= 1),
        (22, is_switch(hfe[22])),
        (23, hfe[22] != 0x00 || hfe[23] == 0),
        (24, is_switch(hfe[24])),
        (25, hfe[24] != 0x00 || hfe[25] == 0),
    ];
    for (offset, good) in fields {
        if !good {
            return Err(Refusal::HfeHeader(offset));
        }
    }
    Ok(())
}

/// The header of a written image, one unit: its fields (§5.4), else FF (§5.5).
pub fn written_header() -> [u8; UNIT_LEN] {
    let mut header = [UNUSED; UNIT_LEN];
    header[0..8].copy_from_slice(&SIGNATURE);
    header[8] = 0; // revision
    header[9] = TRACKS as u8;
    header[10] = SIDES as u8;
    header[11] = 0; // encoding
    header[12..14].copy_from_slice(&BIT_RATE.to_le_bytes());
    header[14..16].copy_from_slice(&300u16.to_le_bytes()); // turns a minute
    header[16] = 0x07; // interface mode
    header[TABLE_FIELD..TABLE_FIELD + 2].copy_from_slice(&1u16.to_le_bytes());
    header[20] = 0xFF; // write allowed
    header[21] = 0xFF; // single step
    header
}
