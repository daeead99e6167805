//! From the block image to an HFE image.

use crate::cells::{pack_cells, place_in_part, UNIT_LEN};
use crate::geometry::{IMAGE_LEN, SIDES, TRACKS, TRACK_LEN};
use crate::hfe::{written_header, UNUSED};
use crate::reply::{Lent, Refusal, Reply};
use crate::track_table::ENTRY_LEN;
use crate::written::{written_side_cells, SIDE_DATA_LEN};

/// Unit where the track table is written.
pub const TABLE_UNIT: usize = 1;

/// Unit where track 0 is written.
pub const FIRST_TRACK_UNIT: usize = 2;

/// Units of a written track (§5.3).
pub const UNITS_PER_TRACK: usize = 49;

/// Cell bytes of a written track, both sides together.
pub const WRITTEN_TRACK_LEN: usize = 25_000;

/// Bytes of a written HFE image (§5.3).
pub const HFE_LEN: usize = UNIT_LEN * (FIRST_TRACK_UNIT + UNITS_PER_TRACK * TRACKS);

/// Writes the HFE image of the block image, every byte of it (§8.2): FF where
/// nothing else is said (§5.5). Refusal 1 judges the HFE image first (§7.1).
pub fn pack(image: &[u8], hfe: &mut [u8]) -> Reply {
    if hfe.len() != HFE_LEN {
        return Refusal::Size(Lent::Hfe).reply();
    }
    if image.len() != IMAGE_LEN {
        return Refusal::Size(Lent::Blocks).reply();
    }
    hfe.fill(UNUSED);
    hfe[..UNIT_LEN].copy_from_slice(&written_header());
    for (track, data) in image.chunks(TRACK_LEN).enumerate() {
        let unit = FIRST_TRACK_UNIT + UNITS_PER_TRACK * track;
        write_entry(hfe, track, unit);
        write_track(&mut hfe[UNIT_LEN * unit..], track, data);
    }
    Reply::DONE
}

/// The table entry of a track that begins at `unit` (§5.3).
fn write_entry(hfe: &mut [u8], track: usize, unit: usize) {
    let entry = UNIT_LEN * TABLE_UNIT + ENTRY_LEN * track;
    hfe[entry..entry + 2].copy_from_slice(&(unit as u16).to_le_bytes());
    hfe[entry + 2..entry + 4].copy_from_slice(&(WRITTEN_TRACK_LEN as u16).to_le_bytes());
}

/// Both sides of a track, whose bytes stand one after the other in the block
/// image (§1.2), into the part of the HFE image that begins with it (§2.6).
fn write_track(part: &mut [u8], track: usize, data: &[u8]) {
    for side in 0..SIDES {
        let mut side_data = [0; SIDE_DATA_LEN];
        side_data.copy_from_slice(&data[SIDE_DATA_LEN * side..SIDE_DATA_LEN * (side + 1)]);
        let cells = written_side_cells(track as u8, side as u8, &side_data);
        for (index, byte) in pack_cells(&cells).iter().enumerate() {
            part[place_in_part(side, index)] = *byte;
        }
    }
}
