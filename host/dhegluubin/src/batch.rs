//! Lists of removes and adds for one call, and why such a call is refused.

use std::error::Error;
use std::fmt;

use crate::refusal::Refusal;
use crate::reply::Reply;
use crate::sectors::IMAGE_LEN;

/// What an item begins with.
const REMOVE: u8 = 1;
const ADD: u8 = 2;

/// Most bytes of a name that an item can hold.
const NAME_LIMIT: usize = 255;

/// Most bytes of data that are listed; more than this never fits a disk.
const DATA_LIMIT: usize = IMAGE_LEN;

/// A list for [`batch`](crate::batch): removes and adds, in the order in which
/// they are to be made. Whatever is listed, the list is never wrong, so that a
/// batch of it is not refused with 20.
///
/// A batch gives what the single calls give with the same arguments, whatever
/// their lengths. An item has room for a name of 255 bytes and data below 2^32;
/// of a longer name the first 255 bytes are listed, of data longer than a block
/// image as many bytes as that has. Such an item is never accepted: it is refused
/// as its call would be, with [`Argument`](Refusal::Argument) for a name over 36
/// bytes, with [`TooFewBlocks`](Refusal::TooFewBlocks) for more data than a disk
/// holds, or with what is judged before these.
///
/// ```
/// use dhegluubin::BatchList;
///
/// let mut list = BatchList::new();
/// list.remove(b"old").add(b"new", 5, b"data");
/// assert_eq!(list.items(), 2);
/// assert_eq!(list.bytes(), b"\x01\x03old\x02\x03new\0\0\0\x05\0\0\0\x04data");
/// ```
#[derive(Clone, Debug, Default, PartialEq, Eq, Hash)]
pub struct BatchList {
    bytes: Vec<u8>,
    items: usize,
}

impl BatchList {
    /// An empty list.
    pub const fn new() -> BatchList {
        BatchList {
            bytes: Vec::new(),
            items: 0,
        }
    }

    /// Lists a remove: see [`remove`](crate::remove).
    pub fn remove(&mut self, name: &[u8]) -> &mut BatchList {
        self.begin(REMOVE, name);
        self
    }

    /// Lists an add: see [`add`](crate::add).
    pub fn add(&mut self, name: &[u8], date: u32, data: &[u8]) -> &mut BatchList {
        let data = first(data, DATA_LIMIT);
        // The limit has fewer than 32 bits.
        let data_len = data.len() as u32;
        self.begin(ADD, name);
        self.bytes.extend(date.to_be_bytes());
        self.bytes.extend(data_len.to_be_bytes());
        self.bytes.extend(data);
        self
    }

    /// Kind and name, with which every item begins.
    fn begin(&mut self, kind: u8, name: &[u8]) {
        let name = first(name, NAME_LIMIT);
        // The limit has eight bits.
        self.bytes.extend([kind, name.len() as u8]);
        self.bytes.extend(name);
        self.items += 1;
    }

    /// How many items are listed.
    pub const fn items(&self) -> usize {
        self.items
    }

    /// The list as [`raw::batch`](crate::raw::batch) takes it.
    pub fn bytes(&self) -> &[u8] {
        &self.bytes
    }
}

/// The first bytes, at most so many.
fn first(bytes: &[u8], limit: usize) -> &[u8] {
    bytes.get(..limit).unwrap_or(bytes)
}

/// Why a [`batch`](crate::batch) was refused: which of its items, and why that
/// one. The items before a refused one stand, and those after it were not tried;
/// of a list with a wrong item, and where no item is named, none was tried.
///
/// ```
/// use dhegluubin::{BatchRefusal, Refusal};
///
/// let refused = BatchRefusal { item: Some(3), refusal: Refusal::NamePresent { slot: 7 } };
/// assert_eq!(
///     refused.to_string(),
///     "item 3: refused 13: name already present in slot 7"
/// );
/// ```
#[derive(Clone, Copy, Debug, PartialEq, Eq, Hash)]
pub struct BatchRefusal {
    /// The item that is refused or, with [`WrongItem`](Refusal::WrongItem),
    /// wrong, from 1; none where the whole call is, which changes nothing.
    pub item: Option<usize>,
    /// Why: as the single call would say it, or that the list is wrong.
    pub refusal: Refusal,
}

impl BatchRefusal {
    /// The refusal that an answer to a batch stands for.
    pub(crate) fn of(reply: Reply) -> BatchRefusal {
        let Reply { number, third, .. } = reply;
        let item = (third != 0).then_some(third);
        let refusal = match number {
            // Its item is a place of its own.
            20 => Refusal::of(reply),
            _ => Refusal::of(Reply { third: 0, ..reply }),
        };
        BatchRefusal { item, refusal }
    }

    /// Number and places as the library gives them.
    pub const fn reply(self) -> Reply {
        let Reply {
            number,
            first,
            second,
            third,
        } = self.refusal.reply();
        let third = match self.item {
            Some(item) => item,
            None => third,
        };
        Reply::new([number, first, second, third])
    }

    /// How many items were accepted, all of which stand.
    ///
    /// ```
    /// use dhegluubin::Reply;
    ///
    /// let accepted = |parts| Reply::new(parts).batch_result().map_err(|refused| refused.accepted());
    /// assert_eq!(accepted([14, 0, 0, 3]), Err(2));
    /// assert_eq!(accepted([20, 0, 0, 3]), Err(0));
    /// assert_eq!(accepted([1, 2, 0, 0]), Err(0));
    /// ```
    pub const fn accepted(self) -> usize {
        match (self.item, self.refusal) {
            (None, _) | (_, Refusal::WrongItem { .. }) => 0,
            (Some(item), _) => item.saturating_sub(1),
        }
    }
}

impl fmt::Display for BatchRefusal {
    fn fmt(&self, f: &mut fmt::Formatter<'_>) -> fmt::Result {
        match (self.item, self.refusal) {
            // The refusal itself names it.
            (None, refusal) | (_, refusal @ Refusal::WrongItem { .. }) => write!(f, "{refusal}"),
            (Some(item), refusal) => write!(f, "item {item}: {refusal}"),
        }
    }
}

impl Error for BatchRefusal {}

#[cfg(test)]
mod tests {
    use super::*;

    fn refused(parts: [usize; 4]) -> BatchRefusal {
        Reply::new(parts).batch_result().unwrap_err()
    }

    #[test]
    fn every_answer_is_kept() {
        let places = [0, 1, 2, 3, 500, usize::MAX];
        for number in (1..22).chain([usize::MAX]) {
            for first in places {
                for second in places {
                    for third in places {
                        let reply = Reply::new([number, first, second, third]);
                        assert_eq!(BatchRefusal::of(reply).reply(), reply);
                    }
                }
            }
        }
    }

    #[test]
    fn items_and_refusals() {
        for (parts, item, refusal) in [
            ([8, 24, 0, 1], Some(1), Refusal::DiskHeader { offset: 24 }),
            ([12, 0, 0, 9], Some(9), Refusal::Argument),
            ([13, 5, 0, 2], Some(2), Refusal::NamePresent { slot: 5 }),
            ([20, 0, 0, 4], Some(4), Refusal::WrongItem { item: 4 }),
            (
                [1, 2, 0, 0],
                None,
                Refusal::Length {
                    lent: crate::Lent::Blocks,
                },
            ),
        ] {
            assert_eq!(refused(parts), BatchRefusal { item, refusal });
        }
        assert_eq!(Reply::new([0; 4]).batch_result(), Ok(()));
    }

    #[test]
    fn in_words() {
        for (parts, words) in [
            ([14, 0, 0, 2], "item 2: refused 14: no file of this name"),
            ([20, 0, 0, 4], "refused 20: list wrong at item 4"),
            (
                [1, 2, 0, 0],
                "refused 1: block image or first track of a wrong length",
            ),
        ] {
            assert_eq!(refused(parts).to_string(), words);
        }
    }

    /// What an item has no room for is listed as the most that it has.
    #[test]
    fn long_names_and_data() {
        let mut list = BatchList::new();
        list.remove(&[7; 255])
            .remove(&[7; 256])
            .remove(&[7; 70_000]);
        let item = [&[1, 255][..], &[7; 255]].concat();
        assert_eq!(list.bytes(), item.repeat(3));
        let mut list = BatchList::new();
        list.add(b"n", 0, &vec![7; IMAGE_LEN]);
        assert_eq!(list.bytes()[7..11], (IMAGE_LEN as u32).to_be_bytes());
        assert_eq!(list.bytes().len(), 11 + IMAGE_LEN);
        let mut more = BatchList::new();
        more.add(b"n", 0, &vec![7; IMAGE_LEN + 1]);
        assert_eq!(more, list);
    }
}
