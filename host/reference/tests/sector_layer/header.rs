//! Refusal 2, judged on the header alone: §2.2 and §2.3.

use crate::answer::{assert_refused, assert_unpacks};
use crate::shared::build::{disk, packed};
use reference::hfe::{judge_header, judge_rewritten_header, written_header, Version};
use reference::reply::Refusal;

/// The versions that are read, with their letters (§2.2).
const VERSIONS: [(Version, &[u8; 8]); 2] =
    [(Version::One, b"HXCPICFE"), (Version::Three, b"HXCHFEV3")];

/// A written header with these letters, and these bytes laid over it.
fn header(letters: &[u8; 8], patches: &[(usize, u8)]) -> [u8; 512] {
    let mut header = written_header();
    header[..8].copy_from_slice(letters);
    for &(offset, byte) in patches {
        header[offset] = byte;
    }
    header
}

/// The field that a refusal of the header names.
fn field(refusal: Refusal) -> usize {
    match refusal {
        Refusal::HfeHeader(offset) => offset,
        _ => panic!("{refusal:?}"),
    }
}

/// What the judge says of such a header: the version, or the wrong field.
fn judged(letters: &[u8; 8], patches: &[(usize, u8)]) -> Result<Version, usize> {
    judge_header(&header(letters, patches)).map_err(field)
}

/// Letters and revision (§2.2), and the other fields (§2.3), which are the same
/// in both versions.
#[test]
fn every_byte_alone() {
    for (version, letters) in VERSIONS {
        for offset in 0..512 {
            for byte in 0..=255 {
                let expected = match (offset, byte) {
                    (0..=7, _) if byte != letters[offset] => Err(0),
                    (8, 1..) => Err(8),
                    (9, 0..=79) => Err(9),
                    (10, _) if byte != 2 => Err(10),
                    (11, 1..) => Err(11),
                    (12, _) if byte != 250 => Err(12),
                    (13, 1..) => Err(12),
                    (18, 0) => Err(18),
                    (22, 0x00) => Err(23),
                    (22, 0x01..=0xFE) => Err(22),
                    (24, 0x00) => Err(25),
                    (24, 0x01..=0xFE) => Err(24),
                    _ => Ok(version),
                };
                let patch = [(offset, byte)];
                assert_eq!(judged(letters, &patch), expected, "{offset} {byte}");
            }
        }
    }
}

/// Letters that are in part of one version and in part of the other are of
/// neither (§2.2).
#[test]
fn letters_of_both_versions() {
    for taken in 0..=255 {
        let letters = std::array::from_fn(|at| {
            let [(_, one), (_, three)] = VERSIONS;
            if taken >> at & 1 == 0 {
                one[at]
            } else {
                three[at]
            }
        });
        // The first three are the same in both.
        let expected = match taken >> 3 {
            0 => Ok(Version::One),
            31 => Ok(Version::Three),
            _ => Err(0),
        };
        assert_eq!(judged(&letters, &[]), expected, "{letters:?}");
    }
}

/// What is rewritten has the letters of version 1; all else of the header is
/// judged after them (§8.15).
#[test]
fn version_1_alone_is_rewritten() {
    for (version, letters) in VERSIONS {
        for patches in [&[][..], &[(8, 1)], &[(24, 1)]] {
            let read = judged(letters, patches).map(|_| ());
            let expected = match version {
                Version::One => read,
                Version::Three => Err(0),
            };
            let header = header(letters, patches);
            assert_eq!(judge_rewritten_header(&header).map_err(field), expected);
        }
    }
}

/// Flags, and the encoding after each (§2.3).
#[test]
fn switches_with_the_byte_after_them() {
    for (version, letters) in VERSIONS {
        let judged = |patches: &[(usize, u8)]| judged(letters, patches);
        for byte in 0..=255 {
            let second_zero = if byte == 0 { Ok(version) } else { Err(23) };
            assert_eq!(judged(&[(22, 0), (23, byte)]), second_zero);
            assert_eq!(judged(&[(22, 0xFF), (23, byte)]), Ok(version));
            assert_eq!(judged(&[(22, 1), (23, byte)]), Err(22));
            let second_zero = if byte == 0 { Ok(version) } else { Err(25) };
            assert_eq!(judged(&[(24, 0), (25, byte)]), second_zero);
            assert_eq!(judged(&[(24, 0xFF), (25, byte)]), Ok(version));
            assert_eq!(judged(&[(24, 1), (25, byte)]), Err(24));
        }
    }
}

/// 2 names the lowest wrong field (§7.2).
#[test]
fn lowest_wrong_field_is_named() {
    let wrong = [
        (0, 0),
        (8, 1),
        (9, 79),
        (10, 1),
        (11, 1),
        (12, 0),
        (18, 0),
        (22, 1),
        (24, 1),
    ];
    for (_, letters) in VERSIONS {
        for first in 0..wrong.len() {
            assert_eq!(judged(letters, &wrong[first..]), Err(wrong[first].0));
        }
        assert_eq!(judged(letters, &[(22, 0), (24, 0)]), Err(23));
    }
}

#[test]
fn refused_by_unpack_before_the_table() {
    let mut hfe = packed();
    hfe[10] = 1;
    hfe[512 + 2] = 1;
    assert_refused(&hfe, [2, 10, 0, 0]);
}

#[test]
fn more_tracks_and_bytes_that_are_not_judged() {
    let mut hfe = packed();
    hfe[9] = 255;
    for offset in [14, 15, 16, 17, 20, 21, 26, 100, 511] {
        hfe[offset] = 0x33;
    }
    hfe[22..26].fill(0);
    hfe.extend([0x12; 77]);
    assert_unpacks(&hfe, disk());
}
