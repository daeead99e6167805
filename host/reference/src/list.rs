//! The call `list`.

use crate::buffer::give;
use crate::reply::{Refusal, Reply};
use crate::volume::Volume;

/// Writes the held slots into the buffer as they stand, in order (§8.6); the
/// count of bytes is the reply's first place (§7.17).
pub fn list(image: &[u8], out: &mut [u8]) -> Reply {
    match held_bytes(image) {
        Ok(bytes) => give(&bytes, out),
        Err(refusal) => refusal.reply(),
    }
}

fn held_bytes(image: &[u8]) -> Result<Vec<u8>, Refusal> {
    let volume = Volume::of_image(image)?;
    Ok(volume.held_slots().flat_map(|(_, slot)| *slot).collect())
}
