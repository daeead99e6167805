//! Sectors of a packed image, spoilt one way or another.

use super::build::{cell_byte, in_sector, invert};

// Bytes of a sector, counted from the twelve 00 before its header.
pub const SYNC: usize = 12;
pub const HEADER_MARK: usize = 15;
pub const HEADER_CRC: usize = 20;
pub const GAP: usize = 22;
pub const FIELD_SYNC: usize = 56;
pub const DATA_MARK: usize = 59;
pub const DATA: usize = 60;
pub const DATA_CRC: usize = 572;
pub const AFTER: usize = 574;

/// Copies cell bytes of one side from one place to another.
pub fn copy(hfe: &mut [u8], track: usize, side: usize, from: usize, to: usize, count: usize) {
    for index in 0..count {
        hfe[cell_byte(track, side, to + index)] = hfe[cell_byte(track, side, from + index)];
    }
}

/// Makes the sector refused with this number, 4 to 7.
pub fn spoil(hfe: &mut [u8], number: usize, track: usize, side: usize, sector: usize) {
    match number {
        4 => invert(hfe, track, side, sector, HEADER_CRC),
        5 => {
            // The ten bytes of the header again, after the sector.
            let from = in_sector(sector, SYNC);
            let to = in_sector(sector, AFTER + 3);
            copy(hfe, track, side, from, to, 20);
        }
        6 => invert(hfe, track, side, sector, DATA_MARK),
        _ => invert(hfe, track, side, sector, DATA),
    }
}
