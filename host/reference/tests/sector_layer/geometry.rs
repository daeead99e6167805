//! Placement and its tables (§1.3, §1.4, §1.5, §1.6).

use super::shared::placement::{BACKWARD, SIDE_PLACE};
use reference::geometry::{
    backward_table, image_sector, running_at, running_sector, side_place_table, SECTORS,
};
use reference::place;

/// Sector s of block b is running sector 3b + s (§1.3).
#[test]
fn place_is_that_of_the_running_sector() {
    for running in 0..SECTORS {
        let reply = place(running / 3, running % 3);
        assert_eq!(reply.parts(), [0, image_sector(running), 0, 0]);
        assert_eq!(running_sector(running / 3, running % 3), running);
    }
}

/// Placement is one to one (§1.6).
#[test]
fn placement_and_its_inverse() {
    let mut taken = vec![false; SECTORS];
    for running in 0..SECTORS {
        let image = image_sector(running);
        assert!(!taken[image], "image sector {image} twice");
        taken[image] = true;
        assert_eq!(running_at(image), running);
    }
    for image in 0..SECTORS {
        assert_eq!(image_sector(running_at(image)), image);
    }
}

/// The rule gives the two tables (§1.4 §1.6).
#[test]
fn rule_is_table() {
    assert_eq!(side_place_table(), SIDE_PLACE);
    assert_eq!(backward_table(), BACKWARD);
}

#[test]
fn every_ninth_track_is_placed_as_track_0() {
    for track in 0..80 {
        let same = (0..18).all(|l| image_sector(18 * track + l) == 18 * track + image_sector(l));
        assert_eq!(same, track % 9 == 0, "track {track}");
    }
}
