//! Damaged images.

use dhegluubin::{pack, HFE_LEN};
use support::codes::with_codes;
use support::noise::{noise, Generator};

use super::*;

mod reference_agrees;

/// Bytes of a packed side, and where its sectors begin (§5.1, §5.2).
const SIDE: usize = 12_500;
const LEAD: usize = 2 * 146;
const SECTOR: usize = 2 * 658;

/// In a packed sector: the header's run, the data field's run, its FB, and its
/// data.
const RUN: usize = 2 * 12;
const FIELD: usize = 2 * 56;
const MARK: usize = 2 * 59;
const DATA: usize = 2 * 60;

/// An image of a disk of any bytes.
fn packed() -> Vec<u8> {
    let mut hfe = vec![0; HFE_LEN];
    pack(&noise(1, IMAGE_LEN), &mut hfe).unwrap();
    hfe
}

fn version_3(mut hfe: Vec<u8>) -> Vec<u8> {
    hfe[..8].copy_from_slice(b"HXCHFEV3");
    hfe
}

/// Where byte `index` of a side stands in a packed image.
fn side_byte(track: usize, side: usize, index: usize) -> usize {
    512 * (2 + 49 * track) + 512 * (index / 256) + 256 * side + index % 256
}

/// Where a byte of a sector stands in a packed image.
fn sector_byte(at: [usize; 3], index: usize) -> usize {
    let [track, side, sector] = at;
    side_byte(track, side, LEAD + SECTOR * (sector - 1) + index)
}

/// Damages the sector so that it is refused with this number.
fn damage(hfe: &mut [u8], number: usize, at: [usize; 3]) {
    match number {
        4 => hfe[sector_byte(at, RUN + 2)] = 0,
        6 => hfe[sector_byte(at, FIELD + 2)] = 0,
        // Two data cells of one byte of the data.
        _ => hfe[sector_byte(at, DATA + 100)] ^= 0x22,
    }
}

/// Number, track, side and sector of each that is found.
fn found(hfe: &[u8]) -> Vec<[usize; 4]> {
    let bad = of(hfe, DISK_SECTORS);
    assert!(!bad.more);
    assert!(bad.found.iter().all(|bad| !bad.rest_unjudged));
    parts(&bad)
}

fn parts(bad: &BadSectors) -> Vec<[usize; 4]> {
    bad.found
        .iter()
        .map(|bad| bad.refusal.reply().parts())
        .collect()
}

/// All nine sectors of a side, refused with this number.
fn whole_side(number: usize, track: usize, side: usize) -> Vec<[usize; 4]> {
    (1..=9)
        .map(|sector| [number, track, side, sector])
        .collect()
}

#[test]
fn no_bad_sector() {
    assert_eq!(of(&packed(), 64), BadSectors::default());
    assert_eq!(of(&version_3(packed()), 64), BadSectors::default());
}

/// Refused for something else, and of any length.
#[test]
fn no_sector_is_to_blame() {
    let mut hfe = packed();
    damage(&mut hfe, 7, [0, 0, 1]);
    hfe[8] = 1;
    assert_eq!(of(&hfe, 64), BadSectors::default());
    for length in [0, 1, 511, 512, 1023, 1024, 5000] {
        assert_eq!(of(&packed()[..length], 64), BadSectors::default());
    }
}

/// Several of each kind, on one side and on others; the last sector of the disk.
#[test]
fn several_on_a_side() {
    let expected = [
        [7, 0, 0, 1],
        [7, 7, 1, 2],
        [4, 7, 1, 3],
        [6, 7, 1, 4],
        [7, 7, 1, 6],
        [6, 7, 1, 9],
        [4, 8, 0, 1],
        [7, 79, 1, 9],
    ];
    let mut hfe = packed();
    for [number, at @ ..] in expected {
        damage(&mut hfe, number, at);
    }
    assert_eq!(found(&hfe), expected);
    assert_eq!(found(&version_3(hfe)), expected);
}

/// Another byte than FB after the field's run (§4.5).
#[test]
fn another_mark() {
    let mut hfe = packed();
    // Its lowest bit, the last data cell.
    hfe[sector_byte([3, 0, 5], MARK + 1)] ^= 0x80;
    damage(&mut hfe, 7, [3, 0, 6]);
    assert_eq!(found(&hfe), [[6, 3, 0, 5], [7, 3, 0, 6]]);
}

#[test]
fn wiped_sides() {
    for byte in [0, 0xFF] {
        let mut hfe = packed();
        for index in 0..SIDE {
            hfe[side_byte(5, 1, index)] = byte;
            hfe[side_byte(20, 0, index)] = byte;
            hfe[side_byte(20, 1, index)] = byte;
        }
        let expected = [
            whole_side(4, 5, 1),
            whole_side(4, 20, 0),
            whole_side(4, 20, 1),
        ];
        assert_eq!(found(&hfe), expected.concat());
    }
}

/// A sector stands twice on its side (§7.5), the second in place of another.
#[test]
fn several_headers() {
    let mut hfe = packed();
    for index in 0..SECTOR {
        hfe[sector_byte([6, 0, 7], index)] = hfe[sector_byte([6, 0, 2], index)];
    }
    damage(&mut hfe, 7, [6, 0, 8]);
    let expected = [[5, 6, 0, 2], [4, 6, 0, 7], [7, 6, 0, 8]];
    assert_eq!(found(&hfe), expected);
    assert_eq!(found(&version_3(hfe)), expected);
}

/// Codes among the bytes of a version 3 side: only a missing header can be made
/// good without the rest of the side, which the result says.
#[test]
fn sides_with_codes() {
    let mut hfe = packed();
    for (number, at) in [
        (4, [2, 0, 1]),
        (4, [2, 0, 8]),
        (7, [3, 1, 4]),
        (7, [3, 1, 5]),
        (6, [4, 0, 9]),
        (7, [4, 1, 1]),
    ] {
        damage(&mut hfe, number, at);
    }
    let bad = of(&with_codes(&hfe, 60, &mut Generator::new(4)), 64);
    let expected = [
        [4, 2, 0, 1],
        [4, 2, 0, 8],
        [7, 3, 1, 4],
        [6, 4, 0, 9],
        [7, 4, 1, 1],
    ];
    assert_eq!(parts(&bad), expected);
    let unjudged: Vec<bool> = bad.found.iter().map(|bad| bad.rest_unjudged).collect();
    assert_eq!(unjudged, [false, false, true, false, true]);
    assert_eq!(
        bad.lines().lines().skip(2).take(2).collect::<Vec<_>>(),
        [
            "  track 3, side 1, sector 4: data CRC wrong, \
             later sectors of this side are not judged",
            "  track 4, side 0, sector 9: no data field",
        ]
    );
}

/// Tracks of other lengths. A field that the side's end cuts off stays cut off,
/// whatever is made good before it (§4.5).
#[test]
fn longer_and_shorter_tracks() {
    let mut hfe = packed();
    let mut set_length = |track: usize, side_length: usize| {
        let length = u16::try_from(2 * side_length).unwrap().to_le_bytes();
        hfe[512 + 4 * track + 2..][..2].copy_from_slice(&length);
    };
    // All units of the track and those of the next one.
    set_length(10, 49 * 256 + SIDE);
    set_length(11, 20_000);
    // The last sector without the last cells of its CRC, and a side of one byte.
    set_length(12, LEAD + 9 * SECTOR - 2 * 84 - 1);
    set_length(13, 1);
    damage(&mut hfe, 4, [12, 0, 3]);
    damage(&mut hfe, 7, [12, 1, 4]);
    damage(&mut hfe, 6, [10, 1, 7]);
    let mut expected = vec![
        [6, 10, 1, 7],
        [4, 12, 0, 3],
        [6, 12, 0, 9],
        [7, 12, 1, 4],
        [6, 12, 1, 9],
    ];
    expected.extend([whole_side(4, 13, 0), whole_side(4, 13, 1)].concat());
    assert_eq!(found(&hfe), expected);
}

/// The longest sides that there are: a sector has no room before them, so that
/// the whole side is replaced.
#[test]
fn no_room() {
    let mut hfe = packed();
    hfe[512 + 2..512 + 4].copy_from_slice(&0xFFFEu16.to_le_bytes());
    damage(&mut hfe, 4, [0, 0, 2]);
    damage(&mut hfe, 7, [0, 1, 2]);
    let bad = of(&hfe, 64);
    assert_eq!(parts(&bad), [[4, 0, 0, 2], [7, 0, 1, 2]]);
    assert!(bad.found[0].rest_unjudged && !bad.found[1].rest_unjudged);
}

/// All tracks lie over one another: every sector is bad but those of track 5.
#[test]
fn tracks_over_each_other() {
    let mut hfe = packed();
    for track in 0..80 {
        let unit: u16 = 2 + 49 * 5;
        hfe[512 + 4 * track..][..2].copy_from_slice(&unit.to_le_bytes());
    }
    damage(&mut hfe, 7, [5, 0, 3]);
    let bad = of(&hfe, 5 * 18 + 2);
    let expected: Vec<[usize; 4]> = (0..10)
        .flat_map(|side| whole_side(4, side / 2, side % 2))
        .chain([[7, 5, 0, 3], [4, 6, 0, 1]])
        .collect();
    assert_eq!(parts(&bad), expected);
    assert!(bad.more);
}

#[test]
fn no_more_than_the_limit() {
    let mut hfe = packed();
    for sector in 1..=4 {
        damage(&mut hfe, 7, [0, 0, sector]);
    }
    for limit in 0..=5 {
        let bad = of(&hfe, limit);
        assert_eq!(bad.found.len(), limit.min(4));
        assert_eq!(bad.more, limit < 4);
    }
    let lines = "  track 0, side 0, sector 1: data CRC wrong\n  \
                 track 0, side 0, sector 2: data CRC wrong\n  \
                 more than 2 sectors are bad, the others are not named\n";
    assert_eq!(of(&hfe, 2).lines(), lines);
    let sectors = of(&hfe, 2).json();
    assert_eq!(sectors[1]["sector"], 2);
    assert_eq!((sectors[2].is_null(), sectors.get(3)), (true, None));
}

/// The only bad sector is not told twice.
#[test]
fn one_is_told_by_the_refusal() {
    let mut hfe = packed();
    damage(&mut hfe, 7, [5, 1, 3]);
    let bad = of(&hfe, 64);
    assert_eq!(bad.lines(), "");
    let expected = json!([{
        "number": 7, "track": 5, "side": 1, "sector": 3,
        "words": "data CRC wrong", "rest_judged": true,
    }]);
    assert_eq!(bad.json(), expected);
}

/// Damage at any places: the sectors are named in order, each once, the first as
/// the library names it.
#[test]
fn any_damage() {
    let good = packed();
    for seed in 0..24 {
        let mut generator = Generator::new(seed);
        let mut hfe = good.clone();
        for _ in 0..generator.below(6) {
            // The table and the first tracks, where a judgement is short.
            let start = 512 + generator.below(512 * 49 * 8);
            let bits = 1 + generator.below(14);
            let length = 1 + generator.below(1 << bits);
            let bytes = noise(seed + 100, length);
            hfe[start..start + length].copy_from_slice(&bytes);
        }
        if seed % 3 == 0 {
            hfe = version_3(hfe);
        }
        let bad = of(&hfe, 12);
        let first = bad.found.first().map(|bad| bad.refusal);
        assert_eq!(first, refused_sector(&hfe));
        let places: Vec<Place> = bad.found.iter().map(|bad| place(bad.refusal)).collect();
        assert!(places.windows(2).all(|two| two[0] < two[1]), "{seed}");
    }
}
