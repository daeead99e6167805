//! A sector made good in a copy of an image, for the sake of those after it.

use dhegluubin::{pack, rewrite, Edition, Refusal, HFE_LEN, IMAGE_LEN, SECTOR_LEN};

use super::sides::{self, Track, FILLER, LONGEST_SIDE};
use super::{place, Place};

/// Items of 16 cells before the first sector of a packed side (§5.2).
const LEAD_ITEMS: usize = 146;

/// Items of a packed sector (§5.1).
const SECTOR_ITEMS: usize = 658;

/// Bytes that store an item's cells.
const ITEM_LEN: usize = 2;

/// Bytes of an HFE header.
const HEADER_LEN: usize = 512;

/// Most headers of a sector that are taken away. Each costs some fifteen calls;
/// where a side has more, it is replaced.
const MOST_HEADERS: usize = 8;

/// What was changed so that a sector is good.
#[derive(Clone, Copy, Debug, PartialEq, Eq)]
pub enum Mended {
    /// The sector alone; all others give what they gave.
    Sector,
    /// All sectors of the side.
    WholeSide,
}

/// A copy of an image in which sectors are made good.
pub struct Mender {
    edition: Edition,
    tracks: Vec<Track>,
    /// Those of a packed image, whose sectors have zeros.
    good: Vec<Track>,
    /// The header of a packed image, of version 1.
    header: Vec<u8>,
}

impl Mender {
    /// A copy of an image that is refused for a sector, so that its header and
    /// table are good.
    pub fn of(hfe: &[u8]) -> Option<Mender> {
        let mut packed = vec![0; HFE_LEN];
        pack(&vec![0; IMAGE_LEN], &mut packed).ok()?;
        Some(Mender {
            edition: Edition::of(hfe)?,
            tracks: sides::of(hfe)?,
            good: sides::of(&packed)?,
            header: packed.get(..HEADER_LEN)?.to_vec(),
        })
    }

    /// The copy as an image of the same version.
    pub fn image(&self) -> Vec<u8> {
        let mut image = sides::image(&self.header, &self.tracks);
        if self.edition == Edition::Version3 {
            let letters = image.iter_mut().zip(b"HXCHFEV3");
            letters.for_each(|(place, letter)| *place = *letter);
        }
        image
    }

    /// Makes the sector good that the copy is refused for, and no other if that
    /// can be.
    pub fn mend(&mut self, refusal: Refusal) -> Mended {
        let at = place(refusal);
        let sector_alone = self.side(at).and_then(|side| match refusal {
            Refusal::NoHeader { .. } => self.with_sector(at, side),
            Refusal::DataCrc { .. } => self
                .rewritten(at, side)
                .or_else(|| self.with_sector(at, &self.without_headers(at, side)?)),
            _ => self.with_sector(at, &self.without_headers(at, side)?),
        });
        let (side, mended) = match sector_alone {
            Some(side) => (side, Mended::Sector),
            None => (self.good_side(at), Mended::WholeSide),
        };
        let track = self.tracks.get_mut(at.track);
        if let Some(place) = track.and_then(|sides| sides.get_mut(at.side)) {
            *place = side;
        }
        mended
    }

    fn side(&self, at: Place) -> Option<&Vec<u8>> {
        self.tracks.get(at.track)?.get(at.side)
    }

    /// The side of the same track and side in a packed image.
    fn good_side(&self, at: Place) -> Vec<u8> {
        let side = self.good.get(at.track).and_then(|track| track.get(at.side));
        side.cloned().unwrap_or_default()
    }

    /// A side that has no header of the sector, with a good sector before its
    /// first byte. Nothing of the side begins before the cell where it began, and
    /// its end stays (§3.2), so that all its other sectors give what they gave.
    fn with_sector(&self, at: Place, side: &[u8]) -> Option<Vec<u8>> {
        let start = LEAD_ITEMS + SECTOR_ITEMS * at.sector.checked_sub(1)?;
        let packed = self.good_side(at);
        let sector = packed.get(ITEM_LEN * start..ITEM_LEN * (start + SECTOR_ITEMS))?;
        let bytes = [sector, &[FILLER], side].concat();
        (bytes.len() <= LONGEST_SIDE).then_some(bytes)
    }

    /// Whether each byte of a side gives its eight cells, as in version 1: it has
    /// no code (§2.7).
    fn is_plain(&self, side: &[u8]) -> bool {
        self.edition == Edition::Version1 || !side.iter().any(|byte| byte & 0x0F == 0x0F)
    }

    /// The side with zeros written into the sector, and the right CRC (§8.16).
    fn rewritten(&self, at: Place, side: &[u8]) -> Option<Vec<u8>> {
        if !self.is_plain(side) {
            return None;
        }
        let mut image = sides::lone(&self.header, at.track, at.side, side);
        rewrite(&mut image, at.track, at.side, at.sector, &[0; SECTOR_LEN]).ok()?;
        let written = sides::of_lone(&image, at.side, side.len())?;
        self.is_plain(&written).then_some(written)
    }

    /// The side without the headers of the sector. In the run of each, one byte is
    /// zero: no run has eight 0 cells side by side (§3.5). Where a header is
    /// inside the data field of another sector, that one is changed with it.
    fn without_headers(&self, at: Place, side: &[u8]) -> Option<Vec<u8>> {
        let has_room = side.len() + ITEM_LEN * SECTOR_ITEMS < LONGEST_SIDE;
        let mut bytes = (has_room && self.is_plain(side)).then(|| side.to_vec())?;
        for _ in 0..MOST_HEADERS {
            let Some(header) = self.last_header(at, &bytes) else {
                return Some(bytes);
            };
            // The run begins in byte `header` and has 48 cells, so that the next
            // five bytes are wholly its own.
            *bytes.get_mut(header + 3)? = 0;
        }
        self.last_header(at, &bytes).is_none().then_some(bytes)
    }

    /// The byte in which the last header of the sector begins: of the bytes of
    /// the side, as few as possible are left out from its beginning until the
    /// library finds no header.
    fn last_header(&self, at: Place, side: &[u8]) -> Option<usize> {
        if !self.has_header(at, side) {
            return None;
        }
        let (mut with, mut without) = (0, side.len());
        while without - with > 1 {
            let middle = with + (without - with) / 2;
            match self.has_header(at, side.get(middle..)?) {
                true => with = middle,
                false => without = middle,
            }
        }
        Some(with)
    }

    /// Whether the library finds a header of the sector: rewrite judges this
    /// sector alone, and 4 before all else of it (§8.15).
    fn has_header(&self, at: Place, side: &[u8]) -> bool {
        let mut image = sides::lone(&self.header, at.track, at.side, side);
        let reply = rewrite(&mut image, at.track, at.side, at.sector, &[0; SECTOR_LEN]);
        !matches!(reply, Err(Refusal::NoHeader { .. }))
    }
}
