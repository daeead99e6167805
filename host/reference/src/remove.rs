//! The call `remove`.

use crate::layout::entry::SLOT_LEN;
use crate::layout::record::Record;
use crate::reply::{Refusal, Reply};
use crate::volume::Volume;

/// Removes the named file, with all bytes of its blocks and its slot (§8.13).
/// The directory keeps its length. A refusal changes nothing (§7.19).
pub fn remove(image: &mut [u8], name: &[u8]) -> Reply {
    match without_file(image, name) {
        Ok(volume) => {
            volume.disk.write_to(image);
            Reply::DONE
        }
        Err(refusal) => refusal.reply(),
    }
}

/// The volume without the file (§8.13), or the refusal.
fn without_file(image: &[u8], name: &[u8]) -> Result<Volume, Refusal> {
    let mut volume = Volume::of_image(image)?;
    let file = volume.named_file(name)?;
    for block in volume.blocks_of(file) {
        volume.disk.block_mut(block).fill(0);
        volume.set_record(block, Record::Free);
    }
    volume.write_slot(file, &[0; SLOT_LEN]);
    volume.count_update();
    Ok(volume)
}
