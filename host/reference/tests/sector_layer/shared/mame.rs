//! Tracks that MAME's encoder wrote, with other gaps than `pack` writes.

use super::answer::assert_unpacks;
use support::gzip::gunzip;

const HFE: &[u8] = include_bytes!("../../data/mame_tracks.hfe.gz");
const IMAGE: &[u8] = include_bytes!("../../data/mame_tracks.img.gz");

#[test]
fn mame_tracks() {
    assert_unpacks(&gunzip(HFE), &gunzip(IMAGE));
}
