//! What the first track of a disk tells of it.

use dhegluubin::{first_track, FirstTrack, Refusal, FIRST_TRACK_LEN, IMAGE_LEN, SECTOR_LEN};
use serde_json::{json, Value};

/// Sectors of a disk, good ones and bad ones.
const SECTORS: usize = IMAGE_LEN / SECTOR_LEN;

/// Sectors of a block.
const SECTORS_PER_BLOCK: usize = 3;

/// The counts of a block image.
pub fn of(image: &[u8]) -> Result<FirstTrack, Refusal> {
    first_track(image.get(..FIRST_TRACK_LEN).unwrap_or_default())
}

/// How many blocks are bad.
fn bad_blocks(counts: FirstTrack) -> usize {
    SECTORS.saturating_sub(counts.good) / SECTORS_PER_BLOCK
}

/// The count of bad blocks in words that follow others; nothing where there are
/// none.
pub fn bad_blocks_in_words(counts: FirstTrack) -> String {
    match bad_blocks(counts) {
        0 => String::new(),
        1 => String::from(", 1 bad block"),
        count => format!(", {count} bad blocks"),
    }
}

/// The counts as members of a JSON object.
pub fn put_into(object: &mut Value, counts: FirstTrack) {
    let members = [
        ("free_sectors", counts.free),
        ("good_sectors", counts.good),
        ("bad_blocks", bad_blocks(counts)),
    ];
    let members = members.map(|(name, count)| (String::from(name), json!(count)));
    if let Some(object) = object.as_object_mut() {
        object.extend(members);
    }
}
