//! Refusal 3: the track table, wherever it stands.

use super::answer::unpack;
use super::build::{empty_tracks, set_entry, set_table_unit, EMPTY, UNIT};
use support::cases::cases;
use support::noise::Generator;

fn bad(track: usize) -> [usize; 4] {
    [3, track, 0, 0]
}

/// A length is even and at least 2 (§2.5).
#[test]
fn lengths() {
    // One unit more, so that a length of 512 fits after the table.
    let mut hfe = empty_tracks();
    hfe.extend([0; 512]);
    for (len, expected) in [
        (0, bad(30)),
        (1, bad(30)),
        (2, EMPTY),
        (511, bad(30)),
        (512, EMPTY),
        (514, bad(30)),
        (65_534, bad(30)),
        (65_535, bad(30)),
    ] {
        set_entry(&mut hfe, 1, 30, 2, len);
        assert_eq!(unpack(&hfe), expected, "length {len}");
    }
}

/// The last unit lies wholly within the image (§2.5).
#[test]
fn last_unit_is_wholly_within_the_image() {
    let mut hfe = empty_tracks();
    hfe.resize(UNIT * 9, 0);
    set_entry(&mut hfe, 1, 5, 6, 1026);
    for (len, expected) in [
        (UNIT * 9, EMPTY),
        (UNIT * 9 - 1, bad(5)),
        (UNIT * 8 + 2, bad(5)),
        (UNIT * 8, bad(5)),
    ] {
        assert_eq!(unpack(&hfe[..len]), expected, "{len} bytes");
    }
    set_entry(&mut hfe, 1, 5, 6, 1024);
    assert_eq!(unpack(&hfe[..UNIT * 8]), EMPTY);
    assert_eq!(unpack(&hfe[..UNIT * 8 - 1]), bad(5));
}

/// Unit 0 is allowed, and tracks may lie over the header and the table (§2.5).
#[test]
fn offsets() {
    let mut hfe = empty_tracks();
    for (unit, expected) in [
        (0, EMPTY),
        (1, EMPTY),
        (2, bad(79)),
        (32_768, bad(79)),
        (65_535, bad(79)),
    ] {
        set_entry(&mut hfe, 1, 79, unit, 512);
        assert_eq!(unpack(&hfe), expected, "unit {unit}");
    }
}

/// 3 names the lowest track (§7.3).
#[test]
fn lowest_track_is_named() {
    let mut hfe = empty_tracks();
    for track in (0..80).rev() {
        set_entry(&mut hfe, 1, track, 0, 3);
        assert_eq!(unpack(&hfe), bad(track));
    }
}

/// Entries 0 to 79 are used, whatever byte 9 says (§2.4).
#[test]
fn entries_from_80_on_are_not_judged() {
    for tracks in [80, 81, 255] {
        let mut hfe = empty_tracks();
        hfe[9] = tracks;
        hfe[UNIT + 4 * 80..].fill(0);
        assert_eq!(unpack(&hfe), EMPTY);
    }
}

/// Entries that are not within the image (§2.5).
#[test]
fn table_beyond_the_image() {
    let mut hfe = empty_tracks();
    for unit in [2, 3, 32_767, 32_768, 65_535] {
        set_table_unit(&mut hfe, unit);
        assert_eq!(unpack(&hfe), bad(0), "unit {unit}");
    }
}

/// All four bytes of an entry lie within the image (§2.5).
#[test]
fn table_that_ends_with_the_image() {
    let mut hfe = empty_tracks();
    let table = hfe[UNIT..UNIT + 320].to_vec();
    hfe[UNIT..].fill(0);
    hfe.extend([&[0; 2 * UNIT][..], &table].concat());
    set_table_unit(&mut hfe, 4);
    assert_eq!(unpack(&hfe), EMPTY);
    for cut in 1..=320 {
        let expected = bad((320 - cut) / 4);
        assert_eq!(unpack(&hfe[..hfe.len() - cut]), expected, "cut {cut}");
    }
    // A bad entry below the first that is not wholly there.
    hfe[4 * UNIT + 4 * 7 + 2] = 1;
    assert_eq!(unpack(&hfe[..hfe.len() - 1]), bad(7));
}

/// The reply by the table's rule: 3 with the lowest track whose entry is not
/// good (§2.5 §7.3), else that of tracks without a header.
fn by_rule(hfe: &[u8], table_unit: usize) -> [usize; 4] {
    let is_good = |track: &usize| {
        let entry = UNIT * table_unit + 4 * track;
        let Some(entry) = hfe.get(entry..entry + 4) else {
            return false;
        };
        let number = |low: usize| usize::from(entry[low]) + 256 * usize::from(entry[low + 1]);
        let (unit, len) = (number(0), number(2));
        len % 2 == 0 && len >= 2 && UNIT * (unit + len.div_ceil(UNIT)) <= hfe.len()
    };
    (0..80).find(|track| !is_good(track)).map_or(EMPTY, bad)
}

/// Random entries, wherever table and tracks stand (§2.5).
#[test]
fn random_tables() {
    let mut generator = Generator::new(31);
    let mut good = 0;
    let usual = 600;
    let runs = cases(usual);
    for case in 0..runs {
        let units = 2 + generator.below(20);
        let mut hfe = empty_tracks();
        let over = generator.below(2) * generator.below(UNIT);
        hfe.resize(UNIT * units + over, 0x24);
        let table_unit = 1 + generator.below(units);
        if table_unit != 1 {
            let table = hfe[UNIT..UNIT + 320].to_vec();
            let end = hfe.len();
            let start = (UNIT * table_unit).min(end);
            let count = table.len().min(end - start);
            hfe[start..start + count].copy_from_slice(&table[..count]);
        }
        set_table_unit(&mut hfe, table_unit);
        for _ in 0..generator.below(3) {
            let track = generator.below(82);
            let lens = [0, 1, 2, 510, 512, 514, generator.below(65_536)];
            let len = *generator.choice(&lens);
            if UNIT * table_unit + 4 * track + 4 <= hfe.len() {
                set_entry(&mut hfe, table_unit, track, generator.below(units + 2), len);
            }
        }
        println!("case {case}: {units} units, table at {table_unit}");
        let reply = unpack(&hfe);
        assert_eq!(reply, by_rule(&hfe, table_unit));
        good += u32::from(reply == EMPTY);
    }
    println!("{good} good tables");
    // Few cases need not give both kinds.
    assert!(runs < usual || (0 < good && good < runs));
}
