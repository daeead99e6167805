//! Images cut at any length.

use super::both::{assert_refused, unpack};
use super::build::{packed, set_entry, set_table_unit, track_0, written_unit, UNIT};
use super::side::{good_sectors, side_bytes};
use dhegluubin::HFE_LEN;
use support::cases::cases;
use support::noise::Generator;

/// What a packed image gives that is cut to this length.
fn expected(len: usize) -> [usize; 4] {
    let whole_tracks = (len / UNIT).saturating_sub(2) / 49;
    match len {
        0..=1023 => [1, 1, 0, 0],
        HFE_LEN.. => [0; 4],
        _ => [3, whole_tracks, 0, 0],
    }
}

#[test]
fn short_images() {
    let hfe = packed();
    for len in 0..1100 {
        assert_refused(&hfe[..len], expected(len));
    }
}

#[test]
fn about_the_end_of_each_track() {
    let hfe = packed();
    for track in 0..80 {
        let end = UNIT * written_unit(track + 1);
        for len in [end - UNIT, end - 1, end, end + 1] {
            if len < HFE_LEN {
                assert_refused(&hfe[..len], expected(len));
            }
        }
    }
}

#[test]
fn random_lengths() {
    let hfe = packed();
    let mut generator = Generator::new(51);
    for _ in 0..cases(500) {
        let len = generator.below(HFE_LEN);
        assert_eq!(unpack(&hfe[..len]), expected(len), "{len} bytes");
    }
}

#[test]
fn cut_within_the_table() {
    // The table stands after all tracks, and is cut at every byte.
    let sides = [0, 1].map(|side| side_bytes(&good_sectors(0, side, 9)));
    let mut hfe = track_0(&sides);
    let table = hfe[UNIT..UNIT + 320].to_vec();
    let unit = hfe.len() / UNIT;
    hfe.extend(table);
    set_table_unit(&mut hfe, unit);
    for cut in 1..=320 {
        let track = (320 - cut) / 4;
        assert_refused(&hfe[..hfe.len() - cut], [3, track, 0, 0]);
    }
    assert_eq!(unpack(&hfe), [4, 1, 0, 1]);
}

#[test]
fn cut_that_leaves_all_tracks() {
    // All entries name track 0's units, so what follows is not needed.
    let mut hfe = packed();
    for track in 0..80 {
        set_entry(&mut hfe, 1, track, written_unit(0), 25_000);
    }
    let end = UNIT * written_unit(1);
    for len in [end, end + 1, end + 777, HFE_LEN] {
        assert_eq!(unpack(&hfe[..len]), [4, 1, 0, 1]);
    }
    assert_eq!(unpack(&hfe[..end - 1]), [3, 0, 0, 0]);
}
