//! Track tables of written and of cut images.

use crate::answer::assert_refused;
use crate::shared::build::packed;
use reference::track_table::{judge_table, Track};

#[test]
fn entries_of_a_packed_image() {
    let hfe = packed();
    let tracks = judge_table(&hfe).unwrap();
    assert_eq!(tracks.len(), 80);
    for (number, track) in tracks.iter().enumerate() {
        let start = 512 * (2 + 49 * number);
        assert_eq!(*track, Track { start, len: 25_000 });
        assert_eq!(track.end(), start + 512 * 49);
    }
}

#[test]
fn cut_image_is_refused_at_its_last_track() {
    let hfe = packed();
    assert_refused(&hfe[..hfe.len() - 1], [3, 79, 0, 0]);
    assert_refused(&hfe[..512 * (2 + 49 * 40)], [3, 40, 0, 0]);
    assert_refused(&hfe[..1024], [3, 0, 0, 0]);
}
