//! Each of 2 to 7 with its places, and which of several is given.

use super::answer::{assert_refused, unpack};
use super::build::{invert, packed, set_entry};
use super::spoil::{spoil, AFTER};

/// 4 to 7, each with track, side and R (§7.4 §7.5 §7.6 §7.7).
#[test]
fn track_side_and_sector_are_named() {
    for (track, side, sector) in [(0, 0, 1), (0, 1, 9), (2, 0, 5), (17, 0, 5)] {
        for number in 4..=7 {
            let mut hfe = packed();
            spoil(&mut hfe, number, track, side, sector);
            assert_eq!(unpack(&hfe), [number, track, side, sector]);
        }
    }
}

#[test]
fn last_track_of_the_disk() {
    for sector in [1, 9] {
        for number in 4..=7 {
            let mut hfe = packed();
            spoil(&mut hfe, number, 79, 1, sector);
            assert_refused(&hfe, [number, 79, 1, sector]);
        }
    }
}

#[test]
fn every_sector_of_a_track() {
    for side in [0, 1] {
        for sector in 1..=9 {
            let mut hfe = packed();
            let number = 4 + (sector + side) % 4;
            spoil(&mut hfe, number, 1, side, sector);
            assert_refused(&hfe, [number, 1, side, sector]);
        }
    }
}

/// The first bad sector decides, whatever its number (§7.18).
#[test]
fn first_bad_sector_decides_whatever_its_number() {
    let mut hfe = packed();
    for (number, track, side, sector) in [
        (4, 12, 1, 9),
        (4, 5, 1, 1),
        (5, 5, 0, 9),
        (6, 5, 0, 8),
        (7, 3, 0, 7),
        (4, 3, 0, 6),
        (7, 0, 0, 1),
    ] {
        spoil(&mut hfe, number, track, side, sector);
        assert_eq!(unpack(&hfe), [number, track, side, sector]);
    }
}

#[test]
fn lowest_number_of_one_sector() {
    let mut hfe = packed();
    for number in [7, 6, 5, 4] {
        spoil(&mut hfe, number, 1, 0, 3);
        // With its own header spoilt, the second one is the only one, and
        // no field follows it within reach.
        let expected = if number == 4 { 6 } else { number };
        assert_eq!(unpack(&hfe), [expected, 1, 0, 3]);
    }
    invert(&mut hfe, 1, 0, 3, AFTER + 3);
    assert_eq!(unpack(&hfe), [4, 1, 0, 3]);
}

/// The lowest number is given (§7.18).
#[test]
fn header_before_table_before_sectors() {
    let mut hfe = packed();
    spoil(&mut hfe, 4, 0, 0, 1);
    assert_eq!(unpack(&hfe), [4, 0, 0, 1]);
    set_entry(&mut hfe, 1, 79, 2, 0);
    assert_eq!(unpack(&hfe), [3, 79, 0, 0]);
    hfe[25] = 3;
    hfe[24] = 0;
    assert_eq!(unpack(&hfe), [2, 25, 0, 0]);
    assert_eq!(unpack(&hfe[..1023]), [1, 1, 0, 0]);
}
