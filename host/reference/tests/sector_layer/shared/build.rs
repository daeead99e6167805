//! HFE images for the tests.

use reference::cells::{place_in_part, side_bytes};
use reference::geometry::IMAGE_LEN;
use reference::hfe::written_header;
use reference::pack::HFE_LEN;
use reference::Reply;
use std::sync::OnceLock;
use support::noise::noise;

/// Bytes of a unit.
pub const UNIT: usize = 512;

/// Bytes of both sides of a written track.
pub const WRITTEN: usize = 25_000;

/// A block image of noise.
pub fn disk() -> &'static [u8] {
    static DISK: OnceLock<Vec<u8>> = OnceLock::new();
    DISK.get_or_init(|| noise(70, IMAGE_LEN))
}

/// Another one: what a block image holds before it is lent.
pub fn pattern() -> &'static [u8] {
    static PATTERN: OnceLock<Vec<u8>> = OnceLock::new();
    PATTERN.get_or_init(|| noise(11, IMAGE_LEN))
}

/// The HFE image that the reference packs the disk to.
pub fn packed() -> Vec<u8> {
    static PACKED: OnceLock<Vec<u8>> = OnceLock::new();
    let packed = PACKED.get_or_init(|| {
        let mut hfe = vec![0x55; HFE_LEN];
        assert_eq!(reference::pack(disk(), &mut hfe), Reply::DONE);
        hfe
    });
    packed.clone()
}

/// The unit where `pack` puts a track.
pub fn written_unit(track: usize) -> usize {
    2 + 49 * track
}

/// Where byte `index` of a side's cell bytes stands in a packed image.
pub fn cell_byte(track: usize, side: usize, index: usize) -> usize {
    UNIT * written_unit(track) + place_in_part(side, index)
}

/// Where, in a written side, the cell bytes of byte `index` of a sector
/// begin, counted from the twelve 00 before its header.
pub fn in_sector(sector: usize, index: usize) -> usize {
    2 * (146 + 658 * (sector - 1) + index)
}

/// Inverts all cells of one byte of a sector.
pub fn invert(hfe: &mut [u8], track: usize, side: usize, sector: usize, index: usize) {
    for byte in [0, 1] {
        hfe[cell_byte(track, side, in_sector(sector, index) + byte)] ^= 0xFF;
    }
}

/// Both sides' cell bytes of a track of a packed image.
pub fn sides(hfe: &[u8], track: usize) -> [Vec<u8>; 2] {
    let part = &hfe[UNIT * written_unit(track)..];
    [0, 1].map(|side| side_bytes(part, WRITTEN, side))
}

/// Whole units of two sides, both as long as the longer one; unused bytes
/// are 00.
pub fn units(sides: &[Vec<u8>; 2]) -> Vec<u8> {
    let longest = sides[0].len().max(sides[1].len());
    let mut units = vec![0; UNIT * longest.div_ceil(UNIT / 2)];
    for (side, bytes) in sides.iter().enumerate() {
        for (index, byte) in bytes.iter().enumerate() {
            units[place_in_part(side, index)] = *byte;
        }
    }
    units
}

/// Puts the offset of the track table into the header.
pub fn set_table_unit(hfe: &mut [u8], unit: usize) {
    hfe[18..20].copy_from_slice(&(unit as u16).to_le_bytes());
}

/// Puts the entry of a track into the table at a unit.
pub fn set_entry(hfe: &mut [u8], table_unit: usize, track: usize, unit: usize, len: usize) {
    let entry = UNIT * table_unit + 4 * track;
    hfe[entry..entry + 2].copy_from_slice(&(unit as u16).to_le_bytes());
    hfe[entry + 2..entry + 4].copy_from_slice(&(len as u16).to_le_bytes());
}

/// Appends whole units and gives the number of the first.
pub fn append(hfe: &mut Vec<u8>, units: &[u8]) -> usize {
    let unit = hfe.len() / UNIT;
    hfe.extend(units);
    unit
}

/// Appends a track of two sides and lets its entry at unit 1 name it.
pub fn move_track(hfe: &mut Vec<u8>, track: usize, sides: &[Vec<u8>; 2]) {
    let len = 2 * sides[0].len().max(sides[1].len());
    let unit = append(hfe, &units(sides));
    set_entry(hfe, 1, track, unit, len);
}

/// Puts track 0 of a packed image over its HFE header: it begins at unit 0, whose
/// bytes are its first, and its own follow. The table stands at the end.
pub fn lay_track_0_over_header(hfe: &mut Vec<u8>) {
    let table = hfe[UNIT..2 * UNIT].to_vec();
    let track = units(&sides(hfe, 0));
    hfe[UNIT..UNIT + track.len()].copy_from_slice(&track);
    let table_unit = append(hfe, &table);
    set_table_unit(hfe, table_unit);
    set_entry(hfe, table_unit, 0, 0, WRITTEN + UNIT);
}

/// What an image gives whose header and table are good and whose tracks
/// have no cells to speak of.
pub const EMPTY: [usize; 4] = [4, 0, 0, 1];

/// Header and table of two units; each track has the two first bytes.
pub fn empty_tracks() -> Vec<u8> {
    let mut hfe = written_header().to_vec();
    hfe.resize(2 * UNIT, 0xFF);
    for track in 0..80 {
        set_entry(&mut hfe, 1, track, 0, 2);
    }
    hfe
}

/// What an image gives whose track 0 is good and whose others are empty.
pub const TRACK_0_GOOD: [usize; 4] = [4, 1, 0, 1];

/// An image with these sides on track 0; all other tracks are empty, so that
/// judging it takes little time.
pub fn track_0(sides: &[Vec<u8>; 2]) -> Vec<u8> {
    let mut hfe = empty_tracks();
    move_track(&mut hfe, 0, sides);
    hfe
}
