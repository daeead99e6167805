//! Sides put together by chance, with faults, slips and strange gaps.

use super::both::{assert_unpacks, unpack};
use super::build::{disk, move_track, packed, track_0, TRACK_0_GOOD};
use super::side::{change, gap_cells, random_cells, side_cells, Sector};
use reference::cells::pack_cells;
use support::cases::cases;
use support::noise::Generator;

/// Cells of a gap: bytes 4E, all 0, or by chance.
fn random_gap(generator: &mut Generator, count: usize) -> Vec<u8> {
    match generator.below(4) {
        0 => vec![0; count],
        1 => random_cells(generator, count),
        _ => gap_cells(count),
    }
}

/// A good sector of track 0 with gaps by chance; its data are the disk's.
fn random_sector(generator: &mut Generator, side: u8, r: u8) -> Sector {
    let image_sector = 9 * usize::from(side) + usize::from(r) - 1;
    let data = &disk()[512 * image_sector..512 * (image_sector + 1)];
    let before = generator.below(500);
    let gap = match generator.below(3) {
        0 => 680 + generator.below(9),
        1 => generator.below(40),
        _ => generator.below(689),
    };
    Sector {
        before: random_gap(generator, before),
        gap: random_gap(generator, gap),
        ..Sector::good(0, side, r, data)
    }
}

/// A side of track 0; with `faults`, of 100 sectors so many are changed.
fn random_side(generator: &mut Generator, side: u8, faults: usize) -> Vec<u8> {
    let mut order: Vec<u8> = (1..=9).collect();
    for last in (1..9).rev() {
        order.swap(last, generator.below(last + 1));
    }
    let mut sectors = Vec::new();
    for r in order {
        let mut sector = random_sector(generator, side, r);
        if generator.below(100) < faults {
            change(generator, &mut sector);
        }
        sectors.push(sector);
    }
    let mut cells = side_cells(&sectors);
    if generator.below(100) < faults {
        // Cells lost, cells too many, or the end lost.
        let place = generator.below(cells.len());
        match generator.below(3) {
            0 => drop(cells.drain(place..cells.len().min(place + 1 + generator.below(9)))),
            1 => cells.insert(place, 0),
            _ => cells.truncate(cells.len() - generator.below(1500)),
        }
    }
    cells.truncate(cells.len() / 8 * 8);
    pack_cells(&cells)
}

#[test]
fn sides_with_faults() {
    let mut generator = Generator::new(61);
    let mut replies = std::collections::BTreeMap::new();
    for case in 0..cases(400) {
        let faults = *generator.choice(&[3, 10, 25]);
        let sides = [0, 1].map(|side| random_side(&mut generator, side, faults));
        println!("case {case}");
        let reply = unpack(&track_0(&sides));
        *replies.entry(reply[0]).or_insert(0) += 1;
    }
    println!("numbers given: {replies:?}");
    if cases(0) == 0 {
        assert_eq!(replies.len(), 4, "each of 4 to 7");
    }
}

#[test]
fn sides_without_faults() {
    let mut generator = Generator::new(62);
    for case in 0..cases(3) {
        println!("case {case}");
        let sides = [0, 1].map(|side| random_side(&mut generator, side, 0));
        let mut hfe = packed();
        move_track(&mut hfe, 0, &sides);
        if unpack(&track_0(&sides)) == TRACK_0_GOOD {
            assert_unpacks(&hfe, disk());
        }
    }
}
