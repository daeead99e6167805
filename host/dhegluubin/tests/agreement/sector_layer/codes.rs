//! Version 3 images with codes, right and wrong, and random damage: library and
//! reference must agree.

use super::both::unpack;
use super::build::{packed, sides, TRACK_0_GOOD};
use super::shared::version_3::coded_track_0;
use std::collections::BTreeSet;
use support::cases::cases;
use support::codes::{cells, coded, fill, with_codes, COUNTS, INDEX, NOTHING, RATE, SKIP};
use support::noise::Generator;

/// Changes a byte somewhere: to a code or a count, or any other, or in one bit;
/// or the byte is lost, or comes twice.
fn change(generator: &mut Generator, bytes: &mut Vec<u8>) {
    let place = generator.below(bytes.len());
    let byte = bytes[place];
    match generator.below(6) {
        0 => bytes[place] = *generator.choice(&[NOTHING, INDEX, RATE, SKIP]),
        1 => bytes[place] = *generator.choice(&COUNTS),
        2 => bytes[place] = generator.byte() | *generator.choice(&[0, 0x0F]),
        3 => bytes[place] ^= 1 << generator.below(8),
        4 => drop(bytes.remove(place)),
        _ => bytes.insert(place, byte),
    }
}

/// Both sides of track 0 with codes, and then some changes.
fn changed_sides(generator: &mut Generator, written: &[Vec<u8>; 2]) -> [Vec<u8>; 2] {
    let every = *generator.choice(&[4, 12, 100, 3000]);
    let mut sides = [0, 1].map(|side| coded(&cells(&written[side]), every, generator));
    for side in &mut sides {
        for _ in 0..generator.below(3) {
            change(generator, side);
        }
    }
    if generator.below(8) == 0 {
        // The side ends somewhere, within a code or not.
        let side = generator.below(2);
        let lost = generator.below(40);
        let len = sides[side].len() - lost;
        sides.iter_mut().for_each(|side| side.truncate(len));
    }
    fill(&mut sides, generator);
    sides
}

/// Changed bytes among codes: what was data may become a code, and what was
/// none data (§2.7 §2.8 §2.9).
#[test]
fn first_track() {
    let written = sides(&packed(), 0);
    let mut generator = Generator::new(321);
    let mut replies = BTreeSet::new();
    let usual = 600;
    let runs = cases(usual);
    for case in 0..runs {
        let sides = changed_sides(&mut generator, &written);
        let reply = unpack(&coded_track_0(sides));
        println!("case {case}: {reply:?}");
        replies.insert(reply);
    }
    // Few cases need not give all kinds. Where track 0 is good the number is 4
    // too, of track 1.
    let on_track_0 = |number: usize| replies.iter().any(|reply| reply[..2] == [number, 0]);
    let has_all = replies.contains(&TRACK_0_GOOD) && [4, 7, 18].into_iter().all(on_track_0);
    assert!(runs < usual || has_all);
}

/// Whole disks with a few changed bytes, most of them in the tracks (§7.25).
#[test]
fn whole_disk() {
    let mut generator = Generator::new(322);
    let coded = with_codes(&packed(), 50, &mut generator);
    for case in 0..cases(6) {
        let mut hfe = coded.clone();
        for _ in 0..1 + generator.below(3) {
            let place = generator.below(hfe.len());
            hfe[place] = generator.byte();
        }
        let reply = unpack(&hfe);
        println!("case {case}: {reply:?}");
    }
}

/// An image cut anywhere: 1 or 3, as in version 1 (§7.1 §7.3).
#[test]
fn cut_images() {
    let mut generator = Generator::new(323);
    let coded = with_codes(&packed(), 50, &mut generator);
    for _ in 0..cases(100) {
        let len = generator.below(coded.len());
        let reply = unpack(&coded[..len]);
        assert!([1, 3].contains(&reply[0]), "{len} bytes: {reply:?}");
    }
}
