//! What the library answers.

use crate::batch::BatchRefusal;
use crate::refusal::Refusal;

/// An answer as the library gives it: a number and three places.
///
/// The number 0 means done; the others are those of [`Refusal`]. A place that
/// is not named is 0.
#[derive(Clone, Copy, Debug, PartialEq, Eq, Hash)]
pub struct Reply {
    /// 0, or the number of the refusal.
    pub number: usize,
    /// First place; of a done reply the count or place that the call gives.
    pub first: usize,
    /// Second place.
    pub second: usize,
    /// Third place.
    pub third: usize,
}

impl Reply {
    /// An answer from number and places in order.
    pub const fn new(parts: [usize; 4]) -> Reply {
        let [number, first, second, third] = parts;
        Reply {
            number,
            first,
            second,
            third,
        }
    }

    /// Number and places in order.
    pub const fn parts(self) -> [usize; 4] {
        [self.number, self.first, self.second, self.third]
    }

    /// The first place of a done reply, or the refusal.
    ///
    /// ```
    /// use dhegluubin::{Refusal, Reply};
    ///
    /// assert_eq!(Reply::new([0, 1500, 0, 0]).result(), Ok(1500));
    /// assert_eq!(
    ///     Reply::new([9, 17, 0, 0]).result(),
    ///     Err(Refusal::MapRecord { block: 17 })
    /// );
    /// ```
    pub fn result(self) -> Result<usize, Refusal> {
        match self.number {
            0 => Ok(self.first),
            _ => Err(Refusal::of(self)),
        }
    }

    /// The same for an answer to [`raw::batch`](crate::raw::batch), whose third
    /// place is an item.
    ///
    /// ```
    /// use dhegluubin::{BatchRefusal, Refusal, Reply};
    ///
    /// assert_eq!(Reply::new([0, 0, 0, 0]).batch_result(), Ok(()));
    /// assert_eq!(
    ///     Reply::new([13, 7, 0, 3]).batch_result(),
    ///     Err(BatchRefusal { item: Some(3), refusal: Refusal::NamePresent { slot: 7 } })
    /// );
    /// ```
    pub fn batch_result(self) -> Result<(), BatchRefusal> {
        match self.number {
            0 => Ok(()),
            _ => Err(BatchRefusal::of(self)),
        }
    }
}

/// What the first track of a disk tells.
#[derive(Clone, Copy, Debug, Default, PartialEq, Eq, Hash)]
pub struct FirstTrack {
    /// Free sectors, by the header.
    pub free: usize,
    /// Good sectors, by the header.
    pub good: usize,
    /// Blocks whose record is not free, those of header and directory and bad
    /// ones among them.
    pub held: usize,
}

/// Which lent slice has a wrong length.
#[derive(Clone, Copy, Debug, PartialEq, Eq, Hash)]
pub enum Lent {
    /// The HFE image.
    Hfe,
    /// The block image, or the first track.
    Blocks,
}

impl Lent {
    /// The place that stands for it in a reply.
    pub(crate) const fn place(self) -> usize {
        match self {
            Lent::Hfe => 1,
            Lent::Blocks => 2,
        }
    }
}
