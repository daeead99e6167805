//! Random images with random codes: the disk must come back.

use super::answer::{assert_unpacks, pack_into, unpack, unpack_into};
use super::build::{disk, packed, pattern, track_0, EMPTY, TRACK_0_GOOD};
use super::rewrite::random::random_image;
use super::side::{change, good_sectors, random_cells, side_cells};
use super::spoil::spoil;
use super::{coded_track_0, version_3_of_empty, written, wrong_code};
use reference::cells::pack_cells;
use reference::geometry::IMAGE_LEN;
use reference::pack::HFE_LEN;
use support::cases::cases;
use support::codes::{
    cells, coded, fill, looks_like_code, with_codes, COUNTS, INDEX, NOTHING, RATE, SKIP,
};
use support::noise::{noise, Generator};

/// How rare codes are: before about one byte of so many stands one.
fn random_rate(generator: &mut Generator) -> usize {
    *generator.choice(&[4, 10, 60, 500, 8000])
}

/// Whole disks: with index, bit rates and dropped cells among the bytes of all
/// sides the same block image comes back (§2.7 §2.8).
#[test]
fn whole_disks() {
    let mut generator = Generator::new(311);
    for case in 0..cases(4) {
        let image = match case % 2 {
            0 => disk().to_vec(),
            _ => noise(case, IMAGE_LEN),
        };
        let (reply, hfe) = pack_into(&image, &vec![0; HFE_LEN]);
        assert_eq!(reply, [0; 4]);
        let every = [4, 60, 1000, 20][case as usize % 4];
        println!("case {case}: one of {every}");
        let hfe = with_codes(&hfe, every, &mut generator);
        assert_unpacks(&hfe, &image);
    }
}

/// A packed disk with one bad sector, and codes: it is refused as before, with
/// track, side and R (§2.8 §7.7).
#[test]
fn whole_disk_with_a_bad_sector() {
    let mut generator = Generator::new(312);
    let mut hfe = packed();
    spoil(&mut hfe, 7, 70, 1, 6);
    let coded = with_codes(&hfe, 30, &mut generator);
    assert_eq!(unpack_into(&coded, pattern()).0, [7, 70, 1, 6]);
}

/// Images of three tracks, good sectors and bad ones: with codes unpack says of
/// the same cells what it says of version 1 (§2.8).
#[test]
fn built_images() {
    let mut generator = Generator::new(313);
    for case in 0..cases(100) {
        println!("case {case}");
        let hfe = random_image(&mut generator);
        let every = random_rate(&mut generator);
        let coded = with_codes(&hfe, every, &mut generator);
        assert_eq!(unpack(&coded), unpack(&hfe));
    }
}

/// Cells of nine sectors of track 0, of which some have faults; their number
/// fills bytes.
fn random_side(generator: &mut Generator, side: u8) -> Vec<u8> {
    let mut sectors = good_sectors(0, side, generator.below(1000) as u32);
    for sector in &mut sectors {
        let (before, gap) = (generator.below(100), generator.below(689));
        sector.before = random_cells(generator, before);
        sector.gap.truncate(gap);
        if generator.below(30) == 0 {
            change(generator, sector);
        }
    }
    let mut cells = side_cells(&sectors);
    cells.truncate(cells.len() / 8 * 8);
    cells
}

/// Sides in whose gaps any bytes may stand, those that look like codes too: of
/// the same cells version 3 says the same (§2.8). Some cells more before them,
/// fewer than a byte, make no difference.
#[test]
fn built_sides() {
    let mut generator = Generator::new(314);
    let usual = 250;
    let runs = cases(usual);
    let mut good = 0;
    for case in 0..runs {
        println!("case {case}");
        let mut cells = [0, 1].map(|side| random_side(&mut generator, side));
        let most = cells[0].len().max(cells[1].len());
        for cells in &mut cells {
            cells.resize(most, 0);
        }
        let expected = unpack(&track_0(&[pack_cells(&cells[0]), pack_cells(&cells[1])]));
        let every = random_rate(&mut generator);
        let mut sides = cells.map(|cells| {
            let more = vec![0; generator.below(8)];
            coded(&[more, cells].concat(), every, &mut generator)
        });
        fill(&mut sides, &mut generator);
        let reply = unpack(&coded_track_0(sides));
        assert_eq!(reply, expected);
        good += u32::from(reply == TRACK_0_GOOD);
    }
    println!("{good} good tracks");
    // Few cases need not give both kinds.
    assert!(runs < usual || (runs / 10..runs * 9 / 10).contains(&good));
}

/// A wrong code of any kind.
fn random_wrong(generator: &mut Generator) -> Vec<u8> {
    match generator.below(3) {
        0 => {
            // A count over 7.
            let count = generator.byte();
            match COUNTS.contains(&count) {
                true => vec![SKIP, 0x01],
                false => vec![SKIP, count],
            }
        }
        // F4 to FF: not 0F, 4F, 8F or CF.
        _ => vec![16 * (1 + generator.below(3) + 4 * generator.below(4)) as u8 + 15],
    }
}

/// A wrong code by chance among right ones, on one side or on both, is named
/// with its place (§2.9 §7.25); it may also be cut by the end.
#[test]
fn wrong_codes() {
    let mut generator = Generator::new(315);
    let written = written().map(|side| cells(&side));
    for case in 0..cases(300) {
        println!("case {case}");
        let every = random_rate(&mut generator);
        let mut expected = TRACK_0_GOOD;
        let mut sides = [vec![], vec![]];
        for side in [1, 0] {
            let all = &written[side];
            let (first, last) = all.split_at(generator.below(all.len()));
            let mut bytes = coded(first, every, &mut generator);
            if generator.below(2) == 0 {
                expected = wrong_code(0, side, bytes.len());
                bytes.extend(random_wrong(&mut generator));
            }
            bytes.extend(coded(last, every, &mut generator));
            sides[side] = bytes;
        }
        fill(&mut sides, &mut generator);
        if expected == TRACK_0_GOOD && generator.below(2) == 0 {
            let cuts = [vec![RATE], vec![SKIP], vec![SKIP, COUNTS[6]]];
            let cut = generator.choice(&cuts);
            expected = wrong_code(0, 1, sides[1].len());
            sides[0].extend(vec![0x12; cut.len()]);
            sides[1].extend(cut);
        }
        assert_eq!(unpack(&coded_track_0(sides)), expected);
    }
}

/// The first wrong code of a side by the rule (§2.9), a byte at a time: a code
/// that lacks bytes is kept, with how many.
fn first_wrong(bytes: &[u8]) -> Option<usize> {
    let mut open: Option<(usize, usize)> = None;
    for (at, &byte) in bytes.iter().enumerate() {
        open = match (open, byte) {
            (Some((place, 2)), _) if COUNTS.contains(&byte) => Some((place, 1)),
            (Some((place, 2)), _) => return Some(place),
            (Some(_), _) | (None, NOTHING | INDEX) => None,
            (None, RATE) => Some((at, 1)),
            (None, SKIP) => Some((at, 2)),
            (None, _) if looks_like_code(byte) => return Some(at),
            (None, _) => None,
        };
    }
    open.map(|(place, _)| place)
}

/// Sides of bytes and codes by chance: the first wrong code is named (§2.9
/// §7.25), and without one there is no header.
#[test]
fn bytes_by_chance() {
    let mut generator = Generator::new(316);
    let usual = 600;
    let runs = cases(usual);
    let mut wrong = 0;
    for case in 0..runs {
        let sides = random_bytes(&mut generator);
        println!("case {case}: {} bytes", sides[0].len());
        let found = (0..2).find_map(|side| Some(wrong_code(0, side, first_wrong(&sides[side])?)));
        let reply = unpack(&version_3_of_empty(track_0(&sides)));
        assert_eq!(reply, found.unwrap_or(EMPTY));
        wrong += u32::from(found.is_some());
    }
    println!("{wrong} with a wrong code");
    assert!(runs < usual || (runs / 10..runs * 9 / 10).contains(&wrong));
}

/// Two sides of bytes and codes by chance. The end may cut a code, and any byte
/// may be wrong.
pub fn random_bytes(generator: &mut Generator) -> [Vec<u8>; 2] {
    let len = 1 + generator.below(700);
    [0, 1].map(|_| {
        let mut bytes = Vec::new();
        while bytes.len() < len {
            match generator.below(1500) {
                0..=299 => bytes.push(*generator.choice(&[NOTHING, INDEX])),
                300..=499 => bytes.extend([RATE, generator.byte()]),
                500..=699 => bytes.extend([SKIP, *generator.choice(&COUNTS), generator.byte()]),
                700 => bytes.push(generator.byte() | 0x0F),
                701 => bytes.extend([SKIP, generator.byte()]),
                _ => bytes.push(generator.byte() & 0xF7),
            }
        }
        bytes.truncate(len);
        bytes
    })
}
