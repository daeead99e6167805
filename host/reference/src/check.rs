//! The call `check`.

use crate::reply::Reply;
use crate::volume::Volume;

/// Judges the image: 1, 8, 9, 19, 10 and 11 (§8.5).
pub fn check(image: &[u8]) -> Reply {
    match Volume::of_image(image) {
        Ok(_) => Reply::DONE,
        Err(refusal) => refusal.reply(),
    }
}
