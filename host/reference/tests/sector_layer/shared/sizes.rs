//! Refusal 1: lengths of the lent memory.

use super::answer::{pack_into, unpack_into};
use super::build::{empty_tracks, packed, pattern, EMPTY};
use reference::geometry::IMAGE_LEN;
use reference::hfe::SHORTEST;
use reference::pack::HFE_LEN;
use support::noise::noise;

const HFE_LENS: [usize; 8] = [0, 1, 26, 512, 1023, HFE_LEN - 1, HFE_LEN + 1, 2 * HFE_LEN];

const IMAGE_LENS: [usize; 6] = [0, 1, 512, IMAGE_LEN - 1, IMAGE_LEN + 1, HFE_LEN];

/// The HFE image cut, or with bytes after it.
fn hfe_of(len: usize) -> Vec<u8> {
    let mut hfe = packed();
    hfe.resize(len, 0x33);
    hfe
}

/// The HFE image is judged first (§7.1).
#[test]
fn unpack_judges_the_hfe_image_first() {
    for hfe_len in HFE_LENS.into_iter().filter(|&len| len < SHORTEST) {
        for image_len in IMAGE_LENS.into_iter().chain([IMAGE_LEN]) {
            let lent = noise(5, image_len);
            let reply = unpack_into(&hfe_of(hfe_len), &lent).0;
            assert_eq!(reply, [1, 1, 0, 0], "{hfe_len} {image_len}");
        }
    }
}

/// A block image has 737,280 bytes (§7.1).
#[test]
fn unpack_takes_only_a_whole_block_image() {
    for hfe_len in [1024, 1025, HFE_LEN, HFE_LEN + 1] {
        for image_len in IMAGE_LENS {
            let lent = noise(5, image_len);
            let reply = unpack_into(&hfe_of(hfe_len), &lent).0;
            assert_eq!(reply, [1, 2, 0, 0], "{hfe_len} {image_len}");
        }
    }
}

/// An HFE image that is read has 1,024 bytes or more (§7.1).
#[test]
fn shortest_hfe_image() {
    assert_eq!(empty_tracks().len(), SHORTEST);
    assert_eq!(unpack_into(&empty_tracks(), pattern()).0, EMPTY);
    let short = &empty_tracks()[1..];
    assert_eq!(unpack_into(short, pattern()).0, [1, 1, 0, 0]);
}

/// The HFE image is judged first (§7.1).
#[test]
fn pack_judges_the_hfe_image_first() {
    for hfe_len in HFE_LENS {
        for image_len in IMAGE_LENS.into_iter().chain([IMAGE_LEN]) {
            let reply = pack_into(&noise(5, image_len), &noise(6, hfe_len)).0;
            assert_eq!(reply, [1, 1, 0, 0], "{hfe_len} {image_len}");
        }
    }
}

/// A block image has 737,280 bytes (§7.1).
#[test]
fn pack_takes_only_a_whole_block_image() {
    for image_len in IMAGE_LENS {
        let reply = pack_into(&noise(5, image_len), &noise(6, HFE_LEN)).0;
        assert_eq!(reply, [1, 2, 0, 0], "{image_len}");
    }
}
