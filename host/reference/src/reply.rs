//! What calls answer: a number and three places.

use crate::header::SectorId;

/// Number and places of an answer; the number 0 means done (§7.17).
#[derive(Clone, Copy, Debug, PartialEq, Eq)]
pub struct Reply {
    /// 0, or the refusal's number.
    pub number: usize,
    /// First place.
    pub first: usize,
    /// Second place.
    pub second: usize,
    /// Third place.
    pub third: usize,
}

impl Reply {
    /// Done, with nothing to tell.
    pub const DONE: Reply = Reply::new(0, [0; 3]);

    /// An answer from its parts.
    pub const fn new(number: usize, places: [usize; 3]) -> Reply {
        Reply {
            number,
            first: places[0],
            second: places[1],
            third: places[2],
        }
    }

    /// Done, with a count or a place to tell (§7.17).
    pub const fn done_with(first: usize) -> Reply {
        Reply::new(0, [first, 0, 0])
    }

    /// Number and places in order.
    pub fn parts(&self) -> [usize; 4] {
        [self.number, self.first, self.second, self.third]
    }
}

/// Which lent slice has a wrong length.
#[derive(Clone, Copy, Debug, PartialEq, Eq)]
pub enum Lent {
    /// The HFE image.
    Hfe,
    /// The block image or the first track.
    Blocks,
}

/// Why a call is refused.
#[derive(Clone, Copy, Debug, PartialEq, Eq)]
pub enum Refusal {
    /// A lent slice has a wrong length (§7.1).
    Size(Lent),
    /// The field at this offset of the HFE header is wrong (§7.2).
    HfeHeader(usize),
    /// The table entry of this track is not good (§7.3).
    TableEntry(usize),
    /// The sector cannot be read: 4 (§7.4), 5 (§7.5), 6 (§7.6) or 7 (§7.7).
    Sector(u8, SectorId),
    /// The field at this offset of the disk header is wrong (§7.8).
    DiskHeader(usize),
    /// The map record of this block is wrong (§7.9).
    MapRecord(usize),
    /// The file of this number is not sound (§7.10).
    Directory(usize),
    /// The free word is not that of the map (§7.11).
    FreeWord,
    /// A number or a length out of range: block, bad block, sector, track, side,
    /// R, a name's bytes or a sector's (§7.12).
    Argument,
    /// The name to add is that of this slot (§7.13).
    NamePresent(usize),
    /// No file has the name (§7.14).
    NoSuchName,
    /// The free blocks are too few (§7.15).
    TooFewBlocks,
    /// The lent buffer is shorter than these bytes (§7.16).
    BufferTooShort(usize),
    /// With the sector rewritten the image would be misread (§7.24).
    Misread,
    /// A side has a wrong code (§7.25).
    WrongCode {
        /// The track.
        track: usize,
        /// The side.
        side: usize,
        /// Place of the code among the bytes of the side.
        place: usize,
    },
    /// The good word is not that of the map (§7.26).
    GoodWord,
    /// This item of a list, from 1, has another kind or is cut by the list's
    /// end (§7.27).
    WrongItem(usize),
}

impl Refusal {
    /// The number and the places that the refusal names.
    pub fn reply(self) -> Reply {
        match self {
            Refusal::Size(Lent::Hfe) => Reply::new(1, [1, 0, 0]),
            Refusal::Size(Lent::Blocks) => Reply::new(1, [2, 0, 0]),
            Refusal::HfeHeader(offset) => Reply::new(2, [offset, 0, 0]),
            Refusal::TableEntry(track) => Reply::new(3, [track, 0, 0]),
            Refusal::Sector(number, id) => {
                let places = [id.track, id.side, id.r].map(usize::from);
                Reply::new(number.into(), places)
            }
            Refusal::DiskHeader(offset) => Reply::new(8, [offset, 0, 0]),
            Refusal::MapRecord(block) => Reply::new(9, [block, 0, 0]),
            Refusal::Directory(file) => Reply::new(10, [file, 0, 0]),
            Refusal::FreeWord => Reply::new(11, [0; 3]),
            Refusal::Argument => Reply::new(12, [0; 3]),
            Refusal::NamePresent(slot) => Reply::new(13, [slot, 0, 0]),
            Refusal::NoSuchName => Reply::new(14, [0; 3]),
            Refusal::TooFewBlocks => Reply::new(15, [0; 3]),
            Refusal::BufferTooShort(needed) => Reply::new(16, [needed, 0, 0]),
            Refusal::Misread => Reply::new(17, [0; 3]),
            Refusal::WrongCode { track, side, place } => Reply::new(18, [track, side, place]),
            Refusal::GoodWord => Reply::new(19, [0; 3]),
            Refusal::WrongItem(item) => Reply::new(20, [0, 0, item]),
        }
    }
}
