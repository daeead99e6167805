//! The first track, judged alone.

use super::all_calls::judged;
use super::answer::first_track;
use super::build::{fresh, mark_bad, patch, set_record, set_word, three_files};
use reference::geometry::TRACK_LEN;
use support::noise::noise;

/// Free word, good word, and records that are not free: with files (§8.14), with
/// a bad block too.
#[test]
fn counts() {
    assert_eq!(judged(&fresh()), ([0; 4], [1434, 1440, 2]));
    let mut image = three_files();
    assert_eq!(judged(&image), ([0; 4], [1413, 1440, 9]));
    mark_bad(&mut image, 479);
    assert_eq!(judged(&image), ([0; 4], [1410, 1437, 10]));
}

#[test]
fn other_lengths() {
    let image = fresh();
    for len in [0, 1, 1536, 9215, 9217, 737_280] {
        assert_eq!(first_track(&image[..len]), ([1, 2, 0, 0], [0; 3]));
    }
}

/// 1, 8, 9, 19 and 11, in this order (§8.14).
#[test]
fn refusals_in_order() {
    let mut image = three_files();
    set_word(&mut image, 20, 5);
    assert_eq!(judged(&image), ([11, 0, 0, 0], [0; 3]));
    set_word(&mut image, 22, 1439);
    assert_eq!(judged(&image), ([19, 0, 0, 0], [0; 3]));
    set_record(&mut image, 479, [0xF8, 0, 0]);
    assert_eq!(judged(&image), ([9, 479, 0, 0], [0; 3]));
    set_word(&mut image, 36, 63);
    assert_eq!(judged(&image), ([8, 34, 0, 0], [0; 3]));
}

/// 10 is not judged (§8.14).
#[test]
fn directory_is_not_judged() {
    let mut image = three_files();
    patch(&mut image, 1, 64, &[0; 64]);
    set_record(&mut image, 8, [0x12, 0x34, 0x56]);
    assert_eq!(judged(&image), ([0; 4], [1413, 1440, 9]));
}

/// Block 0 is enough (§8.14).
#[test]
fn only_block_0_of_the_track_matters() {
    let mut image = fresh();
    for block in 1..6 {
        patch(&mut image, block, 0, &[0xEE; 1536]);
    }
    assert_eq!(judged(&image), ([0; 4], [1434, 1440, 2]));
}

#[test]
fn random_tracks() {
    for seed in 0..200 {
        let mut track = noise(seed, TRACK_LEN);
        track[..96].copy_from_slice(&fresh()[..96]);
        first_track(&track);
    }
}
