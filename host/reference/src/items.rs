//! The list of a batch, read as items.

use crate::reply::Refusal;

/// An item of a list: a remove or an add with its arguments (§8.18). How many
/// bytes a name may have is judged by the call that it becomes.
#[derive(Clone, Copy, Debug, PartialEq, Eq)]
pub enum Item<'a> {
    /// The remove of a file.
    Remove {
        /// Its name.
        name: &'a [u8],
    },
    /// The add of a file.
    Add {
        /// Its name.
        name: &'a [u8],
        /// Its date.
        date: u32,
        /// Its data.
        data: &'a [u8],
    },
}

/// All items of a list in order (§8.18), or refusal 20 with the number of the
/// first wrong one, from 1 (§7.27).
pub fn items(list: &[u8]) -> Result<Vec<Item<'_>>, Refusal> {
    let mut items = Vec::new();
    let mut rest = list;
    while !rest.is_empty() {
        let number = items.len() + 1;
        let (item, after) = first_item(rest).ok_or(Refusal::WrongItem(number))?;
        items.push(item);
        rest = after;
    }
    Ok(items)
}

/// The item that the bytes begin with, and the bytes after it; nothing if its
/// kind is neither 1 nor 2 or if the bytes end before it does (§7.27). Lengths
/// are asked of what is left, so that no sum is made of them.
fn first_item(bytes: &[u8]) -> Option<(Item<'_>, &[u8])> {
    let (&kind, rest) = bytes.split_first()?;
    let (&name_len, rest) = rest.split_first()?;
    let (name, rest) = rest.split_at_checked(name_len.into())?;
    match kind {
        1 => Some((Item::Remove { name }, rest)),
        2 => {
            let (date, rest) = long(rest)?;
            let (data_len, rest) = long(rest)?;
            let (data, rest) = rest.split_at_checked(usize::try_from(data_len).ok()?)?;
            Some((Item::Add { name, date, data }, rest))
        }
        _ => None,
    }
}

/// The number in the first four bytes, highest first, and the bytes after them.
fn long(bytes: &[u8]) -> Option<(u32, &[u8])> {
    let (number, rest) = bytes.split_first_chunk()?;
    Some((u32::from_be_bytes(*number), rest))
}
