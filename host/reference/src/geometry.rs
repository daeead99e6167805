//! The numbers of the disk kind (§1.1), and where a block stands. Three counts
//! are kept apart: the block with the sector within it, the running sector,
//! the image sector (§1.3).

use crate::field::SECTOR_LEN;
use crate::header;
use crate::reply::{Refusal, Reply};

/// Tracks of the disk (§1.1).
pub const TRACKS: usize = 80;

/// Sides of a track.
pub const SIDES: usize = 2;

/// Sectors on a side of a track.
pub const SECTORS_PER_SIDE: usize = header::SECTORS_PER_SIDE as usize;

/// Sectors on both sides of a track.
pub const SECTORS_PER_TRACK: usize = SIDES * SECTORS_PER_SIDE;

/// Sectors of the disk.
pub const SECTORS: usize = TRACKS * SECTORS_PER_TRACK;

/// Sectors in a block.
pub const SECTORS_PER_BLOCK: usize = 3;

/// Blocks of the disk.
pub const BLOCKS: usize = SECTORS / SECTORS_PER_BLOCK;

/// Bytes in a block.
pub const BLOCK_LEN: usize = SECTORS_PER_BLOCK * SECTOR_LEN;

/// Bytes on a track.
pub const TRACK_LEN: usize = SECTORS_PER_TRACK * SECTOR_LEN;

/// Bytes of the block image, which has all sectors and nothing else (§1.2).
pub const IMAGE_LEN: usize = SECTORS * SECTOR_LEN;

/// By how many places the sectors of a track are moved against the track
/// before, within their side (§1.5).
pub const TRACK_OFFSET: usize = 5;

/// Blocks on a side of a track, and so block pairs of a track (§1.4).
const BLOCKS_PER_SIDE: usize = SECTORS_PER_SIDE / SECTORS_PER_BLOCK;

/// Added on side 1 in the header's table of sides and places (§1.4).
const SIDE_1: usize = 0x80;

/// Side and place of a remainder by 18, which is a sector of one of the
/// track's six blocks (§1.4). A pair is an even block, on side 0, and the odd
/// one after it, on side 1, at the same places.
fn side_and_place(remainder: usize) -> (usize, usize) {
    let block = remainder / SECTORS_PER_BLOCK;
    let sector = remainder % SECTORS_PER_BLOCK;
    let pair = block / SIDES;
    (block % SIDES, BLOCKS_PER_SIDE * sector + pair)
}

/// The remainder by 18 that stands at a place of a side (§1.6).
fn remainder_at(side: usize, place: usize) -> usize {
    let pair = place % BLOCKS_PER_SIDE;
    let sector = place / BLOCKS_PER_SIDE;
    let block = SIDES * pair + side;
    SECTORS_PER_BLOCK * block + sector
}

/// The header's table of sides and places, by remainder (§1.4 §6.7).
pub fn side_place_table() -> [u8; SECTORS_PER_TRACK] {
    std::array::from_fn(|remainder| {
        let (side, place) = side_and_place(remainder);
        (SIDE_1 * side + place) as u8
    })
}

/// The header's backward table, by side and place (§1.6 §6.7).
pub fn backward_table() -> [u8; SECTORS_PER_TRACK] {
    std::array::from_fn(|at| remainder_at(at / SECTORS_PER_SIDE, at % SECTORS_PER_SIDE) as u8)
}

/// The running sector of a sector of a block (§1.3).
pub fn running_sector(block: usize, sector: usize) -> usize {
    SECTORS_PER_BLOCK * block + sector
}

/// The image sector of a running sector, which is below 1,440 (§1.5).
pub fn image_sector(running: usize) -> usize {
    let track = running / SECTORS_PER_TRACK;
    let (side, place) = side_and_place(running % SECTORS_PER_TRACK);
    let moved = (place + TRACK_OFFSET * track) % SECTORS_PER_SIDE;
    SECTORS_PER_TRACK * track + SECTORS_PER_SIDE * side + moved
}

/// The running sector that stands at an image sector below 1,440 (§1.6).
pub fn running_at(image_sector: usize) -> usize {
    let track = image_sector / SECTORS_PER_TRACK;
    let on_track = image_sector % SECTORS_PER_TRACK;
    let side = on_track / SECTORS_PER_SIDE;
    let moved = on_track % SECTORS_PER_SIDE;
    // Adding nine first keeps the difference from falling below 0.
    let offset = TRACK_OFFSET * track % SECTORS_PER_SIDE;
    let place = (moved + SECTORS_PER_SIDE - offset) % SECTORS_PER_SIDE;
    SECTORS_PER_TRACK * track + remainder_at(side, place)
}

/// The call place: the image sector of a sector of a block (§8.3), or refusal
/// 12 where either is out of range (§7.12).
pub fn place(block: usize, sector: usize) -> Reply {
    if block >= BLOCKS || sector >= SECTORS_PER_BLOCK {
        return Refusal::Argument.reply();
    }
    Reply::done_with(image_sector(running_sector(block, sector)))
}
