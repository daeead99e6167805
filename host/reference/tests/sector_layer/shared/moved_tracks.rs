//! Tracks and tables elsewhere than `pack` puts them.

use super::answer::{assert_refused, assert_unpacks, unpack};
use super::build::{
    append, disk, empty_tracks, lay_track_0_over_header, move_track, packed, set_entry,
    set_table_unit, sides, track_0, units, written_unit, TRACK_0_GOOD, UNIT, WRITTEN,
};
use support::cases::cases;
use support::noise::{noise, Generator};

/// The table begins at a unit of 512 bytes (§2.1).
#[test]
fn table_at_another_unit() {
    let mut hfe = packed();
    let table = hfe[UNIT..2 * UNIT].to_vec();
    hfe[UNIT..2 * UNIT].fill(0);
    append(&mut hfe, &[0; UNIT]);
    let unit = append(&mut hfe, &table);
    set_table_unit(&mut hfe, unit);
    assert_unpacks(&hfe, disk());
    set_table_unit(&mut hfe, 1);
    assert_refused(&hfe, [3, 0, 0, 0]);
}

#[test]
fn tracks_in_backward_order() {
    let written = packed();
    let mut hfe = written[..2 * UNIT].to_vec();
    for track in (0..80).rev() {
        move_track(&mut hfe, track, &sides(&written, track));
    }
    assert_unpacks(&hfe, disk());
}

/// Tracks 20 and 21 one after the other, and the unit where they begin.
fn two_in_a_row(hfe: &mut Vec<u8>) -> usize {
    let [lower, upper] = [sides(hfe, 20), sides(hfe, 21)];
    let both = [0, 1].map(|side| [&lower[side][..], &upper[side][..]].concat());
    append(hfe, &units(&both))
}

/// Tracks may lie over each other (§2.5).
#[test]
fn two_tracks_in_the_same_units_and_in_part() {
    // Both entries name all of the row, then each a part of it that holds
    // its own track.
    let mut hfe = packed();
    let unit = two_in_a_row(&mut hfe);
    set_entry(&mut hfe, 1, 20, unit, 2 * WRITTEN);
    set_entry(&mut hfe, 1, 21, unit, 2 * WRITTEN);
    assert_unpacks(&hfe, disk());
    set_entry(&mut hfe, 1, 20, unit, 2 * WRITTEN - UNIT * 40);
    set_entry(&mut hfe, 1, 21, unit + 40, 2 * WRITTEN - UNIT * 40);
    assert_unpacks(&hfe, disk());
}

/// Tracks may lie over the header (§2.5).
#[test]
fn track_over_the_header() {
    let mut hfe = packed();
    lay_track_0_over_header(&mut hfe);
    assert_unpacks(&hfe, disk());
}

/// Tracks may lie over the table (§2.5).
#[test]
fn track_over_the_table() {
    let mut hfe = packed();
    set_entry(&mut hfe, 1, 0, 1, WRITTEN + UNIT);
    assert_unpacks(&hfe, disk());
}

/// A header of another track or side belongs to no sector (§4.2).
#[test]
fn another_track_or_side_is_not_taken() {
    let mut hfe = packed();
    set_entry(&mut hfe, 1, 4, written_unit(3), WRITTEN);
    assert_eq!(unpack(&hfe), [4, 4, 0, 1]);
    let [side_0, side_1] = sides(&hfe, 2);
    move_track(&mut hfe, 2, &[side_1, side_0]);
    assert_eq!(unpack(&hfe), [4, 2, 0, 1]);
}

/// A side has half of its track's length (§2.6).
#[test]
fn other_track_lengths() {
    // The last CRC of a written side ends 182 + 84 bytes before its end.
    let needed = 2 * 2 * (6250 - 182 - 84);
    for (len, expected) in [
        (2, [4, 0, 0, 1]),
        (510, [4, 0, 0, 1]),
        (2400, [6, 0, 0, 1]),
        (needed - 2, [6, 0, 0, 9]),
        (needed, [4, 1, 0, 1]),
        (WRITTEN - 6, [4, 1, 0, 1]),
        (WRITTEN - 2, [4, 1, 0, 1]),
        (49 * UNIT, [4, 1, 0, 1]),
    ] {
        let mut hfe = packed();
        set_entry(&mut hfe, 1, 0, written_unit(0), len);
        set_entry(&mut hfe, 1, 1, 0, 2);
        assert_eq!(unpack(&hfe), expected, "length {len}");
    }
    // All of track 1 is read as the rest of track 0, and other data follow.
    let mut hfe = packed();
    set_entry(&mut hfe, 1, 0, written_unit(0), 65_534);
    assert_unpacks(&hfe, disk());
}

#[test]
fn every_length_about_the_last_sector() {
    let mut hfe = packed();
    set_entry(&mut hfe, 1, 1, 0, 2);
    for len in (21_000..25_088).step_by(46) {
        set_entry(&mut hfe, 1, 0, written_unit(0), len);
        unpack(&hfe);
    }
}

#[test]
fn track_and_table_at_the_highest_unit() {
    let sides = sides(&packed(), 0);
    let highest = 65_535;
    let mut hfe = empty_tracks();
    hfe.resize(UNIT * highest, 0x24);
    append(&mut hfe, &units(&sides));
    set_entry(&mut hfe, 1, 0, highest, WRITTEN);
    assert_eq!(unpack(&hfe), TRACK_0_GOOD);
    assert_refused(&hfe[..hfe.len() - 1], [3, 0, 0, 0]);

    let mut hfe = track_0(&sides);
    let table = hfe[UNIT..UNIT + 320].to_vec();
    hfe.resize(UNIT * highest, 0x24);
    hfe.extend(table);
    set_table_unit(&mut hfe, highest);
    assert_eq!(unpack(&hfe), TRACK_0_GOOD);
    assert_refused(&hfe[..hfe.len() - 1], [3, 79, 0, 0]);
}

#[test]
fn tracks_at_random_units() {
    let mut generator = Generator::new(41);
    let written = packed();
    for case in 0..cases(3) {
        println!("case {case}");
        let mut hfe = written[..2 * UNIT].to_vec();
        let mut order: Vec<usize> = (0..80).collect();
        for last in (1..80).rev() {
            order.swap(last, generator.below(last + 1));
        }
        for track in order {
            let noise = noise(case, UNIT * generator.below(3));
            append(&mut hfe, &noise);
            let unit = append(&mut hfe, &units(&sides(&written, track)));
            let lens = [23_936, 24_994, WRITTEN, 49 * UNIT];
            let len = *generator.choice(&lens);
            set_entry(&mut hfe, 1, track, unit, len);
        }
        let table = hfe[UNIT..2 * UNIT].to_vec();
        let table_unit = append(&mut hfe, &table);
        hfe[UNIT..2 * UNIT].fill(generator.byte());
        set_table_unit(&mut hfe, table_unit);
        hfe.extend(noise(case, generator.below(700)));
        assert_unpacks(&hfe, disk());
    }
}
