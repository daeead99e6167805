//! Codes among the bytes of a side, as HFE version 3 has them.

use crate::cells::byte_cells;

/// A byte that belongs to no code before it is a code if it reads as this or
/// more (§2.7).
pub const LOWEST_CODE: u8 = 0xF0;

/// Code: nothing.
pub const NOTHING: u8 = 0xF0;

/// Code: index. It begins nothing.
pub const INDEX: u8 = 0xF1;

/// Code: the next byte is a bit rate, of any value.
pub const BIT_RATE: u8 = 0xF2;

/// Code: the next byte says how many of the first cells of the byte after it
/// are dropped.
pub const SKIP: u8 = 0xF3;

/// Most cells that are dropped.
pub const MOST_SKIPPED: u8 = 7;

/// The first wrong code of a side (§2.9): its place among the bytes there.
#[derive(Clone, Copy, Debug, PartialEq, Eq)]
pub struct WrongCode(pub usize);

/// A byte as codes and counts are read: its first cell, which is stored in the
/// lowest bit, is the highest (§2.7).
pub fn reversed_bits(byte: u8) -> u8 {
    byte.reverse_bits()
}

/// The cells that the bytes of a side give in version 3 (§2.8), each 0 or 1,
/// or the first wrong code.
///
/// Of what belongs to a code nothing is judged but a count: a bit rate is any
/// byte, and what follows a count is always data.
pub fn coded_cells(bytes: &[u8]) -> Result<Vec<u8>, WrongCode> {
    let mut cells = Vec::new();
    let mut place = 0;
    while place < bytes.len() {
        let wrong = WrongCode(place);
        match reversed_bits(bytes[place]) {
            NOTHING | INDEX => place += 1,
            BIT_RATE => {
                bytes.get(place + 1).ok_or(wrong)?;
                place += 2;
            }
            SKIP => {
                let dropped = count(bytes, place + 1).ok_or(wrong)?;
                let byte = bytes.get(place + 2).ok_or(wrong)?;
                cells.extend(&byte_cells(*byte)[dropped..]);
                place += 3;
            }
            // A weak area, and what is reserved.
            LOWEST_CODE.. => return Err(wrong),
            _ => {
                cells.extend(byte_cells(bytes[place]));
                place += 1;
            }
        }
    }
    Ok(cells)
}

/// The count at this place, if the side has a byte there that reads as 0 to 7;
/// else its code is wrong (§2.9).
fn count(bytes: &[u8], place: usize) -> Option<usize> {
    let count = reversed_bits(*bytes.get(place)?);
    (count <= MOST_SKIPPED).then_some(count.into())
}
