//! From an HFE image to the block image.

use crate::codes::{coded_cells, WrongCode};
use crate::geometry::{IMAGE_LEN, SIDES, TRACKS};
use crate::header::SectorId;
use crate::hfe::{judge_header, Version, SHORTEST};
use crate::reply::{Lent, Refusal, Reply};
use crate::sector::side_sectors;
use crate::track_table::{judge_table, Track};

/// Writes the sectors of the HFE image into the block image (§8.1), by track,
/// side and R (§1.2). All are judged before the first byte is written, so that
/// a refusal changes none (§7.19). With one burst a side at most a packed image
/// is refused or gives what was packed (§10.5).
pub fn unpack(hfe: &[u8], image: &mut [u8]) -> Reply {
    match read_disk(hfe, image.len()) {
        Ok(sectors) => {
            image.copy_from_slice(&sectors);
            Reply::DONE
        }
        Err(refusal) => refusal.reply(),
    }
}

/// All sectors of the disk in image order, or the refusal: 1 (§7.1), 2 (§7.2),
/// 3 (§7.3), 18 (§7.25), then that of the first bad sector (§7.18).
fn read_disk(hfe: &[u8], image_len: usize) -> Result<Vec<u8>, Refusal> {
    if hfe.len() < SHORTEST {
        return Err(Refusal::Size(Lent::Hfe));
    }
    if image_len != IMAGE_LEN {
        return Err(Refusal::Size(Lent::Blocks));
    }
    let version = judge_header(hfe)?;
    let tracks = judge_table(hfe)?;
    if version == Version::Three {
        judge_codes(hfe, &tracks)?;
    }
    let mut sectors = Vec::new();
    for number in 0..TRACKS * SIDES {
        let (track, side) = (number / SIDES, number % SIDES);
        let cells = match version {
            Version::One => tracks[track].side_cells(hfe, side),
            Version::Three => version_3_cells(hfe, &tracks, track, side)?,
        };
        sectors.extend(read_side(&cells, track as u8, side as u8)?);
    }
    Ok(sectors)
}

/// Judges the codes of all sides, by track and then side: 18 at the first wrong
/// one (§7.25).
fn judge_codes(hfe: &[u8], tracks: &[Track]) -> Result<(), Refusal> {
    for number in 0..TRACKS * SIDES {
        let (track, side) = (number / SIDES, number % SIDES);
        version_3_cells(hfe, tracks, track, side)?;
    }
    Ok(())
}

/// The cells of a side in version 3 (§2.8), or its first wrong code (§2.9).
fn version_3_cells(
    hfe: &[u8],
    tracks: &[Track],
    track: usize,
    side: usize,
) -> Result<Vec<u8>, Refusal> {
    let bytes = tracks[track].side_bytes(hfe, side);
    coded_cells(&bytes).map_err(|WrongCode(place)| Refusal::WrongCode { track, side, place })
}

/// The nine sectors of a side in order of R, or the first one's refusal, 4 to 7
/// (§7.18), each judged alone (§4.6).
fn read_side(cells: &[u8], track: u8, side: u8) -> Result<Vec<u8>, Refusal> {
    let mut sectors = Vec::new();
    for (r, given) in (1..).zip(side_sectors(cells, track, side)) {
        let id = SectorId { track, side, r };
        sectors.extend(given.map_err(|number| Refusal::Sector(number, id))?);
    }
    Ok(sectors)
}
