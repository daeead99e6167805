//! What a refusal means.

mod words;

use std::error::Error;

use crate::reply::{Lent, Reply};

/// Why a call was refused. A refused call has changed nothing; of a batch a
/// refused item has not, see [`BatchRefusal`](crate::BatchRefusal).
///
/// Of the numbers that apply the lowest is given, only that 18 comes before 4
/// to 7, 19 before 10 and 11, and 20 right after 1, and that
/// [`rewrite`](crate::rewrite) has an order of its own; of the places that a
/// number could name, the first. Refusals 4 to 7 go by sector: the first bad one
/// by track, side and sector decides.
///
/// ```
/// use dhegluubin::Refusal;
///
/// let refusal = Refusal::DataCrc { track: 3, side: 1, sector: 4 };
/// assert_eq!(refusal.number(), 7);
/// assert_eq!(
///     refusal.to_string(),
///     "refused 7: data CRC wrong at track 3, side 1, sector 4"
/// );
/// ```
#[derive(Clone, Copy, Debug, PartialEq, Eq, Hash)]
pub enum Refusal {
    /// 1: a lent slice has a wrong length; the HFE image is judged first.
    Length {
        /// Which one.
        lent: Lent,
    },
    /// 2: the HFE header is wrong; to [`rewrite`](crate::rewrite) that of
    /// version 3 is too, at offset 0.
    HfeHeader {
        /// Offset of the lowest wrong field.
        offset: usize,
    },
    /// 3: an entry of the track table is not good.
    TrackTable {
        /// The lowest such track.
        track: usize,
    },
    /// 4: the sector has no header.
    NoHeader {
        /// Track, 0 to 79.
        track: usize,
        /// Side, 0 or 1.
        side: usize,
        /// Sector number R, 1 to 9.
        sector: usize,
    },
    /// 5: the sector has two or more headers.
    SeveralHeaders {
        /// Track, 0 to 79.
        track: usize,
        /// Side, 0 or 1.
        side: usize,
        /// Sector number R, 1 to 9.
        sector: usize,
    },
    /// 6: the data field after the sector's header is not present.
    NoDataField {
        /// Track, 0 to 79.
        track: usize,
        /// Side, 0 or 1.
        side: usize,
        /// Sector number R, 1 to 9.
        sector: usize,
    },
    /// 7: the CRC of the sector's data does not hold.
    DataCrc {
        /// Track, 0 to 79.
        track: usize,
        /// Side, 0 or 1.
        side: usize,
        /// Sector number R, 1 to 9.
        sector: usize,
    },
    /// 8: the disk header is wrong, or the directory's length in it. The free
    /// word and the good word are judged by 11 and 19.
    DiskHeader {
        /// Offset of the lowest wrong field, 34 for the length.
        offset: usize,
    },
    /// 9: a map record is of no kind, or of a kind its block cannot have. A
    /// record that begins with FD (hex) is free, whatever follows, and FE FF FF
    /// is bad; these are wrong only at block 0. FE with another tail is wrong.
    MapRecord {
        /// The lowest such block.
        block: usize,
    },
    /// 10: the directory is not sound. Of two files with equal names, in
    /// whatever spelling, the one with the higher number is at fault.
    Directory {
        /// The lowest file number at fault.
        file: usize,
    },
    /// 11: the free-sector word does not fit the map.
    FreeWord,
    /// 12: a file name has not 1 to 36 bytes, a disk name has over 10, the data
    /// of a sector have not 512, a block of a list of bad blocks is not 2 to
    /// 479, or a block, track, side or sector number is out of range.
    Argument,
    /// 13: a file of the name to add is present, in this or another spelling.
    NamePresent {
        /// Its slot.
        slot: usize,
    },
    /// 14: no file has the name, in any spelling.
    NoSuchName,
    /// 15: the file to add needs more blocks than are free.
    TooFewBlocks,
    /// 16: the result does not fit the lent buffer.
    BufferTooShort {
        /// Bytes of the whole result.
        needed: usize,
    },
    /// 17: with the sector rewritten the image would be misread, for it shares
    /// cells with other sectors or with the track table.
    Misread,
    /// 18: a side of a version 3 image has a wrong code: a weak area, a code
    /// that is reserved, a count over 7, or a code that lacks bytes of its own.
    WrongCode {
        /// Track, 0 to 79, of the first such side.
        track: usize,
        /// Side, 0 or 1.
        side: usize,
        /// Place of its first wrong code among the bytes of the side, from 0.
        place: usize,
    },
    /// 19: the good-sector word does not fit the map: it is 1440 less three
    /// times the bad records. It comes after 9 and before 10 and 11.
    GoodWord,
    /// 20: an item of the list that [`raw::batch`](crate::raw::batch) is given has
    /// another kind than 1 and 2, or the list ends before it does. A
    /// [`BatchList`](crate::BatchList) has no such item.
    WrongItem {
        /// The first such item, from 1.
        item: usize,
    },
    /// An answer that this binding has no name for. The library that it was
    /// written for gives none.
    Unknown {
        /// The answer.
        reply: Reply,
    },
}

impl Refusal {
    /// The refusal that an answer stands for; `Unknown` keeps what none of
    /// the others would give back.
    pub(crate) fn of(reply: Reply) -> Refusal {
        let named = Refusal::named(reply);
        match named {
            Some(refusal) if refusal.reply() == reply => refusal,
            _ => Refusal::Unknown { reply },
        }
    }

    /// The refusal of this number, from the places that it names.
    fn named(reply: Reply) -> Option<Refusal> {
        let [number, first, second, third] = reply.parts();
        let refusal = match number {
            1 if first == Lent::Hfe.place() => Refusal::Length { lent: Lent::Hfe },
            1 => Refusal::Length { lent: Lent::Blocks },
            2 => Refusal::HfeHeader { offset: first },
            3 => Refusal::TrackTable { track: first },
            4..=7 => Refusal::of_sector(number, first, second, third),
            8 => Refusal::DiskHeader { offset: first },
            9 => Refusal::MapRecord { block: first },
            10 => Refusal::Directory { file: first },
            11 => Refusal::FreeWord,
            12 => Refusal::Argument,
            13 => Refusal::NamePresent { slot: first },
            14 => Refusal::NoSuchName,
            15 => Refusal::TooFewBlocks,
            16 => Refusal::BufferTooShort { needed: first },
            17 => Refusal::Misread,
            18 => Refusal::WrongCode {
                track: first,
                side: second,
                place: third,
            },
            19 => Refusal::GoodWord,
            20 => Refusal::WrongItem { item: third },
            _ => return None,
        };
        Some(refusal)
    }

    /// The refusal of a sector, 4 to 7.
    fn of_sector(number: usize, track: usize, side: usize, sector: usize) -> Refusal {
        match number {
            4 => Refusal::NoHeader {
                track,
                side,
                sector,
            },
            5 => Refusal::SeveralHeaders {
                track,
                side,
                sector,
            },
            6 => Refusal::NoDataField {
                track,
                side,
                sector,
            },
            _ => Refusal::DataCrc {
                track,
                side,
                sector,
            },
        }
    }

    /// The number, 1 to 20 unless it is unknown.
    pub const fn number(self) -> usize {
        self.reply().number
    }

    /// Number and places as the library gives them.
    pub const fn reply(self) -> Reply {
        match self {
            Refusal::Length { lent } => Reply::new([1, lent.place(), 0, 0]),
            Refusal::HfeHeader { offset } => Reply::new([2, offset, 0, 0]),
            Refusal::TrackTable { track } => Reply::new([3, track, 0, 0]),
            Refusal::NoHeader {
                track,
                side,
                sector,
            } => Reply::new([4, track, side, sector]),
            Refusal::SeveralHeaders {
                track,
                side,
                sector,
            } => Reply::new([5, track, side, sector]),
            Refusal::NoDataField {
                track,
                side,
                sector,
            } => Reply::new([6, track, side, sector]),
            Refusal::DataCrc {
                track,
                side,
                sector,
            } => Reply::new([7, track, side, sector]),
            Refusal::DiskHeader { offset } => Reply::new([8, offset, 0, 0]),
            Refusal::MapRecord { block } => Reply::new([9, block, 0, 0]),
            Refusal::Directory { file } => Reply::new([10, file, 0, 0]),
            Refusal::FreeWord => Reply::new([11, 0, 0, 0]),
            Refusal::Argument => Reply::new([12, 0, 0, 0]),
            Refusal::NamePresent { slot } => Reply::new([13, slot, 0, 0]),
            Refusal::NoSuchName => Reply::new([14, 0, 0, 0]),
            Refusal::TooFewBlocks => Reply::new([15, 0, 0, 0]),
            Refusal::BufferTooShort { needed } => Reply::new([16, needed, 0, 0]),
            Refusal::Misread => Reply::new([17, 0, 0, 0]),
            Refusal::WrongCode { track, side, place } => Reply::new([18, track, side, place]),
            Refusal::GoodWord => Reply::new([19, 0, 0, 0]),
            Refusal::WrongItem { item } => Reply::new([20, 0, 0, item]),
            Refusal::Unknown { reply } => reply,
        }
    }
}

impl Error for Refusal {}

#[cfg(test)]
mod tests {
    use super::*;

    #[test]
    fn every_answer_is_kept() {
        let places = [0, 1, 2, 3, 500, usize::MAX];
        for number in (1..22).chain([usize::MAX]) {
            for first in places {
                for second in places {
                    for third in places {
                        let reply = Reply::new([number, first, second, third]);
                        let refusal = reply.result().unwrap_err();
                        assert_eq!(refusal.reply(), reply);
                        assert_eq!(refusal.number(), number);
                    }
                }
            }
        }
    }

    #[test]
    fn unnamed_places_are_unknown() {
        for parts in [
            [1, 0, 0, 0],
            [1, 3, 0, 0],
            [11, 1, 0, 0],
            [9, 3, 0, 1],
            [19, 1, 0, 0],
            [20, 1, 0, 2],
            [13, 5, 0, 2],
        ] {
            let reply = Reply::new(parts);
            assert_eq!(reply.result(), Err(Refusal::Unknown { reply }));
        }
    }

    #[test]
    fn done() {
        assert_eq!(Reply::new([0; 4]).result(), Ok(0));
        assert_eq!(Reply::new([0, 64, 0, 0]).result(), Ok(64));
    }
}
