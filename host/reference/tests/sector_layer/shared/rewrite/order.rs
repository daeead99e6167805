//! What a rewrite refuses before it looks at its result, and in which order.

use super::answer::{assert_refused, rewrite, unpack};
use super::build::{empty_tracks, packed, set_entry, set_table_unit, sides, track_0, UNIT};
use super::spoil::spoil;
use super::{given, given_with, DONE};
use support::noise::noise;

/// Arguments that are out of range, each alone: a track over 79, a side over
/// 1, R 0 or over 9, data of other than 512 bytes. Some would be in range if
/// they were cut to fewer bits.
fn wrong_arguments() -> Vec<(usize, usize, usize, usize)> {
    let great = [256, 65_536, 1 << 32, usize::MAX];
    let tracks = [80, 81, 255].into_iter().chain(great);
    let sides = [2, 3].into_iter().chain(great);
    let numbers = [0, 10, 11]
        .into_iter()
        .chain(great.map(|n| n.wrapping_add(1)));
    let lens = [0, 1, 511, 513, 1024, 65_536 + 512];
    tracks
        .map(|track| (track, 0, 1, 512))
        .chain(sides.map(|side| (0, side, 1, 512)))
        .chain(numbers.map(|r| (0, 0, r, 512)))
        .chain(lens.map(|len| (0, 0, 1, len)))
        .collect()
}

/// Asserts what all wrong arguments give on an image, and right ones.
fn assert_order(hfe: &[u8], wrong: [usize; 4], right: [usize; 4]) {
    for (track, side, r, len) in wrong_arguments() {
        let reply = rewrite(hfe, track, side, r, &noise(4, len)).0;
        assert_eq!(reply, wrong, "{track} {side} {r}, {len} bytes");
    }
    assert_eq!(rewrite(hfe, 0, 0, 1, &[7; 512]).0, right);
}

/// Track 0 of the packed disk; the other tracks have no sectors.
fn one_track() -> Vec<u8> {
    track_0(&sides(&packed(), 0))
}

/// 12 where a track is over 79, a side over 1, R not 1 to 9, or the data have
/// not 512 bytes; it names no place (§7.12).
#[test]
fn numbers_and_lengths_out_of_range() {
    assert_order(&one_track(), [12, 0, 0, 0], DONE);
    let all_wrong = rewrite(&one_track(), 80, 2, 10, &[]).0;
    assert_eq!(all_wrong, [12, 0, 0, 0]);
}

/// The order is 1, 12, 2, 3, then 4 to 6 (§8.15): an image that gets all of
/// them loses one after the other.
#[test]
fn bad_arguments_on_bad_images() {
    let bad = [12, 0, 0, 0];
    let mut hfe = one_track();
    spoil_first_sector(&mut hfe);
    let mut wrong_table = hfe.clone();
    set_entry(&mut wrong_table, 1, 79, 2, 1);
    let mut wrong_header = wrong_table.clone();
    wrong_header[12] = 0;
    let short = [1, 1, 0, 0];
    assert_order(&wrong_header[..1023], short, short);
    assert_order(&[], short, short);
    assert_order(&wrong_header, bad, [2, 12, 0, 0]);
    assert_order(&wrong_table, bad, [3, 79, 0, 0]);
    assert_order(&hfe, bad, [4, 0, 0, 1]);
}

/// Takes away the header of the first sector of an image made by `track_0`.
fn spoil_first_sector(hfe: &mut [u8]) {
    let track = 2 * UNIT;
    hfe[track..track + UNIT].fill(0);
    hfe[track + UNIT..track + 2 * UNIT].fill(0);
}

/// 1,024 bytes are enough for header and table to be judged (§7.1).
#[test]
fn shortest_image() {
    let mut hfe = empty_tracks();
    assert_order(&hfe, [12, 0, 0, 0], [4, 0, 0, 1]);
    set_table_unit(&mut hfe, 2);
    assert_order(&hfe, [12, 0, 0, 0], [3, 0, 0, 0]);
    set_table_unit(&mut hfe, 0);
    assert_order(&hfe, [12, 0, 0, 0], [2, 18, 0, 0]);
}

/// The lowest wrong field and the lowest track are named, wherever the sector
/// is (§7.2 §7.3).
#[test]
fn header_and_table_are_judged_whole() {
    let mut hfe = packed();
    for track in [79, 41, 0] {
        set_entry(&mut hfe, 1, track, 2, 0);
        assert_eq!(rewrite(&hfe, 7, 1, 3, &[0; 512]).0, [3, track, 0, 0]);
    }
    for offset in [25, 24, 22, 18, 12, 11, 10, 9, 8, 0] {
        match offset {
            25 => hfe[24..26].copy_from_slice(&[0, 1]),
            18 => set_table_unit(&mut hfe, 0),
            _ => hfe[offset] = 79,
        }
        assert_eq!(rewrite(&hfe, 7, 1, 3, &[0; 512]).0, [2, offset, 0, 0]);
    }
}

/// 4, 5 and 6 are judged for the sector that is rewritten (§8.15), and 7 is
/// not.
#[test]
fn own_refusals_of_a_sector() {
    for (track, side, r) in [(0, 0, 1), (17, 1, 9), (79, 0, 5)] {
        for number in 4..=6 {
            let mut hfe = packed();
            spoil(&mut hfe, number, track, side, r);
            let reply = rewrite(&hfe, track, side, r, &[1; 512]).0;
            assert_eq!(reply, [number, track, side, r]);
        }
        let mut hfe = packed();
        spoil(&mut hfe, 7, track, side, r);
        assert_eq!(rewrite(&hfe, track, side, r, &[1; 512]).0, DONE);
    }
}

/// Where unpack refuses the image at other sectors, a sector that has its field
/// is rewritten, and the others stay refused as they were (§8.15 §8.17).
#[test]
fn images_that_unpack_refuses_elsewhere() {
    let mut hfe = packed();
    for (number, track, r) in [(4, 1, 2), (5, 1, 4), (6, 2, 9), (7, 2, 1)] {
        spoil(&mut hfe, number, track, 1, r);
    }
    let data = noise(8, 512);
    for (track, side, r) in [(0, 0, 1), (1, 1, 1), (1, 1, 3), (2, 1, 8), (79, 1, 9)] {
        let (reply, after) = rewrite(&hfe, track, side, r, &data);
        assert_eq!(reply, DONE, "{track} {side} {r}");
        assert_refused(&after, [4, 1, 1, 2]);
        assert!(given(&after) == given_with(&hfe, track, side, r, &data));
    }
    // The first that was refused can now be read, and the next one decides.
    let mut hfe = packed();
    spoil(&mut hfe, 7, 0, 0, 4);
    spoil(&mut hfe, 7, 33, 0, 4);
    let after = rewrite(&hfe, 0, 0, 4, &data).1;
    assert_eq!(unpack(&hfe), [7, 0, 0, 4]);
    assert_eq!(unpack(&after), [7, 33, 0, 4]);
}
