//! What the small program says of the first track.

use crate::disk_header::judge_disk_header;
use crate::field::SECTOR_LEN;
use crate::geometry::{image_sector, running_sector, SECTORS_PER_BLOCK, TRACK_LEN};
use crate::layout::header::{FREE, GOOD};
use crate::layout::record::Record;
use crate::layout::word_at;
use crate::map::{judge_free_word, judge_good_word, judge_map};
use crate::reply::{Lent, Refusal, Reply};

/// The answer for a first track; the three numbers are 0 where it is refused.
#[derive(Clone, Copy, Debug, PartialEq, Eq)]
pub struct FirstTrack {
    /// Done, or 1, 8, 9, 19 or 11.
    pub reply: Reply,
    /// The free word.
    pub free: usize,
    /// The good word.
    pub good: usize,
    /// Records that are not free, those of block 0 and the directory and bad
    /// ones too.
    pub held: usize,
}

/// Judges the first track of an image and counts its blocks (§8.14).
pub fn first_track(track: &[u8]) -> FirstTrack {
    counted(track).unwrap_or_else(|refusal| FirstTrack {
        reply: refusal.reply(),
        free: 0,
        good: 0,
        held: 0,
    })
}

/// The counts, or 1, 8, 9, 19 or 11, in this order (§8.14).
fn counted(track: &[u8]) -> Result<FirstTrack, Refusal> {
    if track.len() != TRACK_LEN {
        return Err(Refusal::Size(Lent::Blocks));
    }
    let block_0 = first_block(track);
    judge_disk_header(&block_0)?;
    let records = judge_map(&block_0)?;
    judge_good_word(&block_0, &records)?;
    judge_free_word(&block_0, &records)?;
    let held = records.iter().filter(|&&record| record != Record::Free);
    Ok(FirstTrack {
        reply: Reply::DONE,
        free: word_at(&block_0, FREE),
        good: word_at(&block_0, GOOD),
        held: held.count(),
    })
}

/// Block 0, whose sectors all stand on the first track (§1.5).
fn first_block(track: &[u8]) -> Vec<u8> {
    let mut block = Vec::new();
    for sector in 0..SECTORS_PER_BLOCK {
        let start = SECTOR_LEN * image_sector(running_sector(0, sector));
        block.extend(&track[start..start + SECTOR_LEN]);
    }
    block
}

/// What the program prints when it has read these bytes.
pub fn first_track_text(track: &[u8]) -> String {
    let FirstTrack {
        reply,
        free,
        good,
        held,
    } = first_track(track);
    if reply == Reply::DONE {
        format!("free {free}\ngood {good}\nheld {held}\n")
    } else {
        format!("refused {}\n", reply.number)
    }
}
