//! The files of a disk, as its directory entries tell of them (§6.13).

use dhegluubin::{list, Refusal, ENTRY_LEN, IMAGE_LEN};

/// Bytes of a file that stand before its data, and that its length counts.
const FILE_HEADER_LEN: u32 = 64;

/// A file of a disk.
#[derive(Clone, Debug, PartialEq, Eq)]
pub struct Entry {
    /// In the spelling that the disk keeps.
    pub name: Vec<u8>,
    /// Bytes of data.
    pub length: u32,
    pub date: u32,
    /// The whole entry as it stands.
    pub bytes: Vec<u8>,
}

/// The files of a block image, in slot order.
pub fn of(image: &[u8]) -> Result<Vec<Entry>, Refusal> {
    // Entries stand in the image, so that they never need more than it has.
    let mut entries = vec![0; IMAGE_LEN];
    let count = list(image, &mut entries)?;
    entries.truncate(count);
    Ok(entries.chunks_exact(ENTRY_LEN).map(read).collect())
}

fn read(entry: &[u8]) -> Entry {
    let name_length = usize::try_from(value(entry, 14..16)).unwrap_or(0);
    Entry {
        name: entry.get(16..16 + name_length).unwrap_or_default().to_vec(),
        length: value(entry, 0..4).saturating_sub(FILE_HEADER_LEN),
        date: value(entry, 52..56),
        bytes: entry.to_vec(),
    }
}

/// Whether an entry has more than length, name and date: an add writes zeros
/// there (§6.13). Other systems keep the type of a file and what a program needs
/// in these bytes.
pub fn has_more(entry: &[u8]) -> bool {
    let other = [4..14, 56..64].map(|part| entry.get(part).unwrap_or_default());
    other.concat().iter().any(|&byte| byte != 0)
}

/// A number of up to four bytes, highest first.
pub fn value(bytes: &[u8], at: std::ops::Range<usize>) -> u32 {
    let bytes = bytes.get(at).unwrap_or_default();
    bytes
        .iter()
        .fold(0, |value, &byte| value << 8 | u32::from(byte))
}
