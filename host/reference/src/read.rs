//! The call `read`.

use crate::buffer::give;
use crate::layout::entry::{Entry, SLOT_LEN};
use crate::reply::{Refusal, Reply};
use crate::volume::Volume;

/// Writes the data of the named file into the buffer (§8.7); the count of bytes
/// is the reply's first place (§7.17).
pub fn read(image: &[u8], name: &[u8], out: &mut [u8]) -> Reply {
    match file_data(image, name) {
        Ok(data) => give(&data, out),
        Err(refusal) => refusal.reply(),
    }
}

/// The file's blocks in sequence (§6.10), from byte 64 up to the entry's length
/// (§8.7), so without the file's first 64 bytes (§6.16).
fn file_data(image: &[u8], name: &[u8]) -> Result<Vec<u8>, Refusal> {
    let volume = Volume::of_image(image)?;
    let file = volume.named_file(name)?;
    let mut bytes = Vec::new();
    for block in volume.blocks_of(file) {
        bytes.extend(volume.disk.block(block));
    }
    let len = Entry::read(&volume.slots[file]).len as usize;
    Ok(bytes[SLOT_LEN..len].to_vec())
}
