//! The track table of an HFE image.

use crate::cells::{side_bytes, side_cells, UNIT_LEN};
use crate::geometry::TRACKS;
use crate::hfe::{table_start, word_at};
use crate::reply::Refusal;

/// Bytes of a table entry (§2.4).
pub const ENTRY_LEN: usize = 4;

/// A good table entry.
#[derive(Clone, Copy, Debug, PartialEq, Eq)]
pub struct Track {
    /// Where the track's units begin in the HFE image.
    pub start: usize,
    /// Bytes of both sides together.
    pub len: usize,
}

impl Track {
    /// Where the last unit of the track ends: its part is its units (§2.6).
    pub fn end(&self) -> usize {
        self.start + UNIT_LEN * self.len.div_ceil(UNIT_LEN)
    }

    /// The bytes of a side of the track, in the image whose table has it (§2.6).
    pub fn side_bytes(&self, hfe: &[u8], side: usize) -> Vec<u8> {
        side_bytes(&hfe[self.start..self.end()], self.len, side)
    }

    /// The cells of a side in version 1: those of all its bytes (§3.2).
    pub fn side_cells(&self, hfe: &[u8], side: usize) -> Vec<u8> {
        side_cells(&hfe[self.start..self.end()], self.len, side)
    }
}

/// The table entry of a track (§2.4), if it is good (§2.5). Tracks may lie
/// over one another, the header and the table.
pub fn good_entry(hfe: &[u8], track: usize) -> Option<Track> {
    let entry = table_start(hfe) + ENTRY_LEN * track;
    if entry + ENTRY_LEN > hfe.len() {
        return None;
    }
    let found = Track {
        start: UNIT_LEN * word_at(hfe, entry),
        len: word_at(hfe, entry + 2),
    };
    let good = found.len != 0 && found.len.is_multiple_of(2) && found.end() <= hfe.len();
    good.then_some(found)
}

/// The entries of tracks 0 to 79 (§2.4); refusal 3 (§7.3) at the first that is
/// not good.
pub fn judge_table(hfe: &[u8]) -> Result<Vec<Track>, Refusal> {
    let mut tracks = Vec::new();
    for track in 0..TRACKS {
        let entry = good_entry(hfe, track);
        tracks.push(entry.ok_or(Refusal::TableEntry(track))?);
    }
    Ok(tracks)
}
