//! Which images are of version 3, and what they have in common with version 1.

use super::answer::{assert_unpacks, rewrite, unpack};
use super::build::{disk, empty_tracks, packed, EMPTY, TRACK_0_GOOD};
use super::rewrite::random::random_image;
use super::spoil::spoil;
use super::{
    coded_track_0, lay, set_entry, track_0, version_3, version_3_of_empty, written, LETTERS,
};
use support::cases::cases;
use support::codes::{looks_like_code, WEAK};
use support::noise::{noise, Generator};

/// Eight letters decide, and the revision is 0 in both versions (§2.2).
#[test]
fn letters_and_revision() {
    let read = |letters: &[u8; 8], revision: u8| {
        let mut hfe = version_3_of_empty(empty_tracks());
        hfe[..8].copy_from_slice(letters);
        hfe[8] = revision;
        unpack(&hfe)
    };
    for letters in [b"HXCPICFE", &LETTERS] {
        assert_eq!(read(letters, 0), EMPTY);
        for revision in 1..=255 {
            assert_eq!(read(letters, revision), [2, 8, 0, 0]);
        }
    }
    for letters in [
        b"HXCHFE\0\0",
        b"HXCHF3\0\0",
        b"HXCHFEV1",
        b"HXCHFEV2",
        b"HXCHFEV4",
        b"HXCHFEv3",
        b"hxchfev3",
        b"HXCPICF3",
        b"HXCPICV3",
        b"HXCHFEFE",
        b"3VEFHCXH",
        b"HHXCHFEV",
    ] {
        for revision in [0, 1] {
            assert_eq!(read(letters, revision), [2, 0, 0, 0], "{letters:?}");
        }
    }
}

/// Each letter alone changed to any other is of neither version (§2.2).
#[test]
fn every_letter() {
    for at in 0..8 {
        for letter in 0..=255 {
            let mut hfe = version_3_of_empty(empty_tracks());
            hfe[at] = letter;
            let expected = match letter == LETTERS[at] {
                true => EMPTY,
                false => [2, 0, 0, 0],
            };
            assert_eq!(unpack(&hfe), expected, "letter {at}: {letter}");
        }
    }
}

/// Without codes it does not matter which version an image says it is of (§2.2
/// §2.8): a whole disk, and one with a bad sector.
#[test]
fn disk_without_codes() {
    assert!(written()
        .iter()
        .flatten()
        .all(|&byte| !looks_like_code(byte)));
    assert_unpacks(&version_3(packed()), disk());
    let mut hfe = version_3(packed());
    spoil(&mut hfe, 5, 33, 1, 4);
    assert_eq!(unpack(&hfe), [5, 33, 1, 4]);
}

/// The same for random images, damaged and with tracks over one another: their
/// bytes are changed so that none looks like a code (§2.8).
#[test]
fn random_images_without_codes() {
    let mut generator = Generator::new(301);
    let usual = 120;
    let runs = cases(usual);
    let mut good = 0;
    for case in 0..runs {
        println!("case {case}");
        let mut hfe = match generator.below(3) {
            0 => random_image(&mut generator),
            _ => damaged_track(&mut generator),
        };
        // The tracks begin after header and table.
        for byte in hfe[1024..]
            .iter_mut()
            .filter(|byte| looks_like_code(**byte))
        {
            *byte ^= 1 << generator.below(4);
        }
        hfe[256] = 0;
        let reply = unpack(&hfe);
        assert_eq!(unpack(&version_3(hfe)), reply);
        good += u32::from(reply == TRACK_0_GOOD);
    }
    println!("{good} good tracks");
    // Few cases need not give both kinds.
    assert!(runs < usual || (runs / 10..runs * 9 / 10).contains(&good));
}

/// Track 0 of the packed disk with some wrong cells.
fn damaged_track(generator: &mut Generator) -> Vec<u8> {
    let mut sides = written();
    for _ in 0..generator.below(6) {
        let side = &mut sides[generator.below(2)];
        let place = generator.below(side.len());
        side[place] ^= 1 << generator.below(8);
    }
    track_0(&sides)
}

/// In version 1 no byte is a code: what looks like one is eight cells, where
/// version 3 has a code, right or wrong (§2.7).
#[test]
fn version_1_has_no_codes() {
    for code in (0x0F..=0xFF).step_by(16) {
        for at in [0, 40, 12_499] {
            let mut sides = written();
            sides[0][at] = code;
            assert_eq!(unpack(&track_0(&sides)), TRACK_0_GOOD, "{code:02X}");
        }
        // A side of nothing else.
        let sides = [0, 1].map(|_| vec![code; 400]);
        assert_eq!(unpack(&track_0(&sides)), EMPTY);
    }
    let mut hfe = packed();
    for track in 0..80 {
        lay(&mut hfe, track, track % 2, 12_490, &noise(1, 10));
        lay(&mut hfe, track, 1 - track % 2, 20, &[WEAK; 16]);
    }
    assert_unpacks(&hfe, disk());
}

/// A version 3 image is not rewritten: 2 at field 0, also where its revision or
/// its table is wrong; 1 and 12 come before that (§8.15).
#[test]
fn rewriting() {
    let data = noise(3, 512);
    let good = version_3(packed());
    let mut wrong_table = good.clone();
    set_entry(&mut wrong_table, 1, 0, 2, 0);
    let mut wrong_revision = wrong_table.clone();
    wrong_revision[8] = 1;
    let mut wrong_codes = good.clone();
    lay(&mut wrong_codes, 0, 0, 0, &[WEAK]);
    let coded = coded_track_0(written());
    for hfe in [good, wrong_table, wrong_revision, wrong_codes, coded] {
        let replied = |track: usize, side: usize, r: usize, data: &[u8]| {
            let (reply, after) = rewrite(&hfe, track, side, r, data);
            assert!(after == hfe, "changed by {reply:?}");
            reply
        };
        for (track, side, r) in [(0, 0, 1), (40, 1, 5), (79, 1, 9)] {
            assert_eq!(replied(track, side, r, &data), [2, 0, 0, 0]);
        }
        for (track, side, r) in [(80, 0, 1), (0, 2, 1), (0, 0, 0), (0, 0, 10)] {
            assert_eq!(replied(track, side, r, &data), [12, 0, 0, 0]);
        }
        assert_eq!(replied(0, 0, 1, &data[1..]), [12, 0, 0, 0]);
        assert_eq!(rewrite(&hfe[..1023], 80, 0, 1, &data).0, [1, 1, 0, 0]);
        assert_eq!(rewrite(&hfe[..1023], 0, 0, 1, &data).0, [1, 1, 0, 0]);
    }
}
