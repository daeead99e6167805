//! The sectors that are named are those that the reference, which judges each
//! sector alone (§4.6), finds bad.

use reference::codes::coded_cells;
use reference::sector::side_sectors;
use reference::track_table::judge_table;
use support::cases::cases;

use super::*;

/// All bad sectors by the reference: number, track, side and sector. None where
/// the image is refused for something else.
fn expected(hfe: &[u8]) -> Option<Vec<[usize; 4]>> {
    refused_sector(hfe)?;
    let tracks = judge_table(hfe).ok()?;
    let plain = hfe.starts_with(b"HXCPICFE");
    let mut bad = Vec::new();
    for number in 0..160 {
        let (track, side) = (number / 2, number % 2);
        let cells = match plain {
            true => tracks[track].side_cells(hfe, side),
            false => coded_cells(&tracks[track].side_bytes(hfe, side)).ok()?,
        };
        let given = side_sectors(&cells, track as u8, side as u8);
        for (sector, given) in (1..).zip(given) {
            bad.extend(
                given
                    .err()
                    .map(|number| [usize::from(number), track, side, sector]),
            );
        }
    }
    Some(bad)
}

/// Damage within the first tracks, where a judgement is short: noise, zeros,
/// single bits, and bytes from elsewhere, which bring second headers.
fn damaged(generator: &mut Generator) -> Vec<u8> {
    let mut hfe = packed();
    for _ in 0..=generator.below(5) {
        let start = 1024 + generator.below(512 * 49 * 4);
        let bits = 1 + generator.below(13);
        let length = 1 + generator.below(1 << bits);
        match generator.below(4) {
            0 => hfe[start..start + length].fill(0),
            1 => hfe[start] ^= 1 << generator.below(8),
            2 => {
                let from = 1024 + 512 * generator.below(49 * 4);
                hfe.copy_within(from..from + length, start / 512 * 512);
            }
            _ => {
                let bytes: Vec<u8> = (0..length).map(|_| generator.byte()).collect();
                hfe[start..start + length].copy_from_slice(&bytes);
            }
        }
    }
    match generator.below(3) {
        0 => version_3(hfe),
        1 => with_codes(&hfe, 60, generator),
        _ => hfe,
    }
}

/// Sectors that could not be judged are left out on both sides.
#[test]
fn on_damaged_images() {
    let mut named = 0;
    for seed in 0..cases(16) {
        let hfe = damaged(&mut Generator::new(seed));
        let bad = of(&hfe, DISK_SECTORS);
        let Some(mut expected) = expected(&hfe) else {
            assert_eq!(bad.found, []);
            continue;
        };
        for unjudged in bad.found.iter().filter(|bad| bad.rest_unjudged) {
            let last = place(unjudged.refusal);
            expected.retain(|&[_, track, side, sector]| {
                (track, side) != (last.track, last.side) || sector <= last.sector
            });
        }
        assert_eq!(parts(&bad), expected, "seed {seed}");
        named += expected.len();
    }
    assert!(named > 0);
}
