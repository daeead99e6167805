//! One sector rewritten in an HFE image.

use crate::cells::{pack_cells, place_in_part};
use crate::crc::crc_of_field;
use crate::field::{DATA_MARK, SECTOR_LEN};
use crate::geometry::{SECTORS_PER_SIDE, SIDES, TRACKS};
use crate::header::{find_header, SectorId};
use crate::hfe::{judge_rewritten_header, SHORTEST};
use crate::mfm::{clock_cell, encode_byte, CELLS_PER_BYTE};
use crate::reply::{Lent, Refusal, Reply};
use crate::sector::{present_field, side_sectors};
use crate::track_table::{judge_table, Track};

/// Writes 512 bytes as the data of a sector of the HFE image (§8.15), which is
/// of version 1. What is written is made in a copy, so that a refusal changes
/// nothing (§7.19).
pub fn rewrite(hfe: &mut [u8], track: usize, side: usize, r: usize, data: &[u8]) -> Reply {
    match rewritten(hfe, track, side, r, data) {
        Ok(result) => {
            hfe.copy_from_slice(&result);
            Reply::DONE
        }
        Err(refusal) => refusal.reply(),
    }
}

/// The image with the sector rewritten, or the refusal: 1 (§7.1), 12 (§7.12),
/// 2 (§7.2), 3 (§7.3), 4 to 6 for this sector alone, then 17 (§7.24), in the
/// order of §8.15.
fn rewritten(
    hfe: &[u8],
    track: usize,
    side: usize,
    r: usize,
    data: &[u8],
) -> Result<Vec<u8>, Refusal> {
    if hfe.len() < SHORTEST {
        return Err(Refusal::Size(Lent::Hfe));
    }
    let id = sector_id(track, side, r).ok_or(Refusal::Argument)?;
    let data: &[u8; SECTOR_LEN] = data.try_into().map_err(|_| Refusal::Argument)?;
    judge_rewritten_header(hfe)?;
    let tracks = judge_table(hfe)?;
    let cells = tracks[track].side_cells(hfe, side);
    let (place, _) = present_field(&cells, find_header(&cells, id))
        .map_err(|number| Refusal::Sector(number, id))?;
    let result = with_side(hfe, tracks[track], side, &with_data(&cells, place, data));
    match reads_as_asked(hfe, &result, id, data) {
        true => Ok(result),
        false => Err(Refusal::Misread),
    }
}

/// The sector of these numbers, if the disk has it (§1.1).
fn sector_id(track: usize, side: usize, r: usize) -> Option<SectorId> {
    let has_it = track < TRACKS && side < SIDES && (1..=SECTORS_PER_SIDE).contains(&r);
    has_it.then_some(SectorId {
        track: track as u8,
        side: side as u8,
        r: r as u8,
    })
}

/// The cells of a side with these data and their CRC in the field whose data
/// begin at `place`, after its FB; and with the clock cell after the CRC, if
/// that is followed by a data cell (§8.16). A field is wholly within the side.
fn with_data(cells: &[u8], place: usize, data: &[u8; SECTOR_LEN]) -> Vec<u8> {
    let crc = crc_of_field(DATA_MARK, data).to_be_bytes();
    let mut after = cells.to_vec();
    let mut at = place;
    let mut last_bit = DATA_MARK & 1;
    for &byte in data.iter().chain(&crc) {
        after[at..at + CELLS_PER_BYTE].copy_from_slice(&encode_byte(byte, last_bit));
        at += CELLS_PER_BYTE;
        last_bit = byte & 1;
    }
    if at + 2 <= after.len() {
        after[at] = clock_cell(last_bit, after[at + 1]);
    }
    after
}

/// The image with these cells of one side.
fn with_side(hfe: &[u8], track: Track, side: usize, cells: &[u8]) -> Vec<u8> {
    let mut after = hfe.to_vec();
    for (index, byte) in pack_cells(cells).into_iter().enumerate() {
        after[track.start + place_in_part(side, index)] = byte;
    }
    after
}

/// Whether the result reads as it must (§8.17): its header and its table are
/// right, the sector gives the data, and every other one what it gave before,
/// each judged alone.
fn reads_as_asked(before: &[u8], after: &[u8], changed: SectorId, data: &[u8; SECTOR_LEN]) -> bool {
    let tables = (judge_table(before), judge_table(after));
    let (Ok(old_tracks), Ok(new_tracks)) = tables else {
        return false;
    };
    let is_kept = |number: usize| {
        let (track, side) = (number / SIDES, number % SIDES);
        let old = old_tracks[track].side_cells(before, side);
        let new = new_tracks[track].side_cells(after, side);
        side_is_kept(&old, &new, track as u8, side as u8, changed, data)
    };
    judge_rewritten_header(after).is_ok() && (0..TRACKS * SIDES).all(is_kept)
}

/// The same for the nine sectors of one side (§8.17). On a side whose cells are
/// all the same every sector gives the same; then only the rewritten one needs
/// to be looked at, if it is on this side.
fn side_is_kept(
    old: &[u8],
    new: &[u8],
    track: u8,
    side: u8,
    changed: SectorId,
    data: &[u8; SECTOR_LEN],
) -> bool {
    let has_changed = (changed.track, changed.side) == (track, side);
    if old == new && !has_changed {
        return true;
    }
    let mut expected = side_sectors(old, track, side);
    if has_changed {
        expected[usize::from(changed.r) - 1] = Ok(*data);
    }
    side_sectors(new, track, side) == expected
}
