//! Refusal 2: the header's fields.

use super::both::unpack;
use super::build::{empty_tracks, EMPTY};
use super::shared::version_3::version_3_of_empty;
use support::cases::cases;
use support::noise::Generator;

/// The letters of both versions that are read (§2.2).
const BOTH_LETTERS: [&[u8; 8]; 2] = [b"HXCPICFE", b"HXCHFEV3"];

/// The shared reply for an image without cells, with these letters and these
/// header bytes.
fn judged(letters: &[u8; 8], patches: &[(usize, u8)]) -> [usize; 4] {
    let mut hfe = version_3_of_empty(empty_tracks());
    hfe[..8].copy_from_slice(letters);
    for &(offset, byte) in patches {
        hfe[offset] = byte;
    }
    unpack(&hfe)
}

fn wrong(offset: usize) -> [usize; 4] {
    [2, offset, 0, 0]
}

/// What a single byte of the header gives.
fn expected(letters: &[u8; 8], offset: usize, byte: u8) -> [usize; 4] {
    match (offset, byte) {
        (0..=7, _) if byte != letters[offset] => wrong(0),
        (8, 1..) => wrong(8),
        (9, 0..=79) => wrong(9),
        (10, _) if byte != 2 => wrong(10),
        (11, 1..) => wrong(11),
        (12, _) if byte != 250 => wrong(12),
        (13, 1..) => wrong(12),
        (18, 0) => wrong(18),
        // A table beyond the image.
        (18, 2..) | (19, 1..) => [3, 0, 0, 0],
        (22, 0x00) => wrong(23),
        (22, 0x01..=0xFE) => wrong(22),
        (24, 0x00) => wrong(25),
        (24, 0x01..=0xFE) => wrong(24),
        _ => EMPTY,
    }
}

/// Letters and revision (§2.2), and the other fields (§2.3), which are the same
/// in both versions.
#[test]
fn every_byte_alone() {
    for letters in BOTH_LETTERS {
        for offset in 0..28 {
            for byte in 0..=255 {
                let reply = judged(letters, &[(offset, byte)]);
                assert_eq!(reply, expected(letters, offset, byte), "{offset} {byte}");
            }
        }
    }
}

/// No further byte of the header is judged (§2.3).
#[test]
fn bytes_that_are_not_judged() {
    for letters in BOTH_LETTERS {
        for offset in (26..512).step_by(7) {
            assert_eq!(judged(letters, &[(offset, 0x00)]), EMPTY, "{offset}");
            assert_eq!(judged(letters, &[(offset, 0x5F)]), EMPTY, "{offset}");
        }
    }
}

/// Flags, and the encoding after each (§2.3).
#[test]
fn switches_with_the_byte_after_them() {
    for letters in BOTH_LETTERS {
        let judged = |patches: &[(usize, u8)]| judged(letters, patches);
        for (switch, byte, expected) in [
            (0x00, 0x00, None),
            (0x00, 0x01, Some(1)),
            (0x00, 0xFF, Some(1)),
            (0xFF, 0x00, None),
            (0xFF, 0x01, None),
            (0xFE, 0x00, Some(0)),
            (0x01, 0x01, Some(0)),
        ] {
            for field in [22, 24] {
                let reply = judged(&[(field, switch), (field + 1, byte)]);
                assert_eq!(reply, expected.map_or(EMPTY, |next| wrong(field + next)));
            }
        }
        assert_eq!(judged(&[(22, 0), (24, 0)]), wrong(23));
        assert_eq!(judged(&[(22, 0), (23, 0), (24, 0)]), wrong(25));
    }
}

/// 2 names the lowest wrong field (§7.2).
#[test]
fn lowest_wrong_field_is_named() {
    let faults = [
        (7, 0),
        (8, 1),
        (9, 79),
        (10, 1),
        (11, 1),
        (13, 1),
        (18, 0),
        (22, 1),
        (24, 1),
    ];
    for first in 0..faults.len() {
        let field = match faults[first].0 {
            7 => 0,
            13 => 12,
            offset => offset,
        };
        for letters in BOTH_LETTERS {
            assert_eq!(judged(letters, &faults[first..]), wrong(field));
        }
    }
}

#[test]
fn random_headers() {
    let mut generator = Generator::new(21);
    for case in 0..cases(1500) {
        let patches: Vec<(usize, u8)> = (0..1 + generator.below(4))
            .map(|_| {
                let bytes = [0x00, 0x01, 0x02, 0xFA, 0xFF, generator.byte()];
                let byte = *generator.choice(&bytes);
                (generator.below(32), byte)
            })
            .collect();
        let letters = generator.choice(&BOTH_LETTERS);
        println!("case {case}: {letters:?} {patches:?}");
        judged(letters, &patches);
    }
}
