//! HFE images of version 3: codes among the bytes of the sides.

use super::{answer, build, recipe_answers, rewrite, side, spoil};

mod ends;
mod inside;
mod layouts;
mod plain;
pub mod random;
mod vectors;
mod wrong;

use build::{cell_byte, move_track, packed, set_entry, sides, track_0, units, UNIT};
use support::codes::{part, LETTERS, NOTHING};

/// 18 with these places.
fn wrong_code(track: usize, side: usize, place: usize) -> [usize; 4] {
    [18, track, side, place]
}

/// The image with the letters of version 3.
fn version_3(mut hfe: Vec<u8>) -> Vec<u8> {
    hfe[..8].copy_from_slice(&LETTERS);
    hfe
}

/// The same for an image that `empty_tracks` or `track_0` made. Its tracks
/// without sectors have one byte a side, the image's first and its 257th: that
/// is FF, which would be a code.
pub fn version_3_of_empty(hfe: Vec<u8>) -> Vec<u8> {
    let mut hfe = version_3(hfe);
    hfe[UNIT / 2] = 0;
    hfe
}

/// An image of version 3 with these sides on track 0, the shorter filled up with
/// codes; all other tracks are empty, so that judging it takes little time.
pub fn coded_track_0(sides: [Vec<u8>; 2]) -> Vec<u8> {
    version_3_of_empty(track_0(&filled(sides)))
}

/// The sides with codes F0, which give no cells, at the end of the shorter one.
fn filled(mut sides: [Vec<u8>; 2]) -> [Vec<u8>; 2] {
    let len = sides[0].len().max(sides[1].len());
    for side in &mut sides {
        side.resize(len, NOTHING);
    }
    sides
}

/// The sides of track 0 as `pack` writes them: no byte of them is a code.
fn written() -> [Vec<u8>; 2] {
    sides(&packed(), 0)
}

/// The bytes with others in place of some, from a place on.
fn spliced(bytes: &[u8], at: usize, removed: usize, others: &[u8]) -> Vec<u8> {
    [&bytes[..at], others, &bytes[at + removed..]].concat()
}

/// Two codes that give a byte's cells: the first `count` of them, and the
/// others. What each drops are the other's cells, inverted.
fn in_two_parts(byte: u8, count: usize) -> Vec<u8> {
    let cells = support::codes::cells(&[byte]);
    let first = part(&cells[..count], !(byte >> count));
    let second = part(&cells[count..], !byte);
    [first, second].concat()
}

/// Lays bytes over those of a side of a packed image.
fn lay(hfe: &mut [u8], track: usize, side: usize, at: usize, bytes: &[u8]) {
    for (index, byte) in bytes.iter().enumerate() {
        hfe[cell_byte(track, side, at + index)] = *byte;
    }
}
