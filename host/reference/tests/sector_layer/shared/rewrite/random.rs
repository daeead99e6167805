//! Random rewrites on random images, good ones and damaged ones.

use super::answer::{rewrite, unpack_into};
use super::build::{empty_tracks, move_track, packed, pattern, set_entry, sides, track_0, UNIT};
use super::side::{change, good_sectors, side_bytes, Sector};
use super::{cells_of, given, given_with, header_of, lay, with_data, DONE, HEADER, MISREAD};
use reference::cells::pack_cells;
use reference::header::{find_header, SectorId};
use reference::sector::{present_field, Given};
use reference::track_table::good_entry;
use std::collections::BTreeMap;
use support::cases::cases;
use support::noise::{noise, Generator};

/// A rewrite to make.
#[derive(Debug)]
pub struct Call {
    pub track: usize,
    pub side: usize,
    pub r: usize,
    pub data: Vec<u8>,
}

impl Call {
    /// Most often of a sector that has a header, with data of its own or with
    /// those that it has.
    pub fn random(generator: &mut Generator, hfe: &[u8], tracks: usize) -> Call {
        let sectors = &given(hfe)[..18 * tracks];
        let headed: Vec<usize> = (0..sectors.len())
            .filter(|&at| sectors[at] != Err(4))
            .collect();
        let at = match headed.is_empty() || generator.below(8) == 0 {
            true => generator.below(sectors.len()),
            false => *generator.choice(&headed),
        };
        let data = match (generator.below(4), &sectors[at]) {
            (0, Ok(data)) => data.to_vec(),
            (1, _) => vec![generator.byte(); 512],
            _ => noise(generator.below(1 << 24) as u32, 512),
        };
        Call {
            track: at / 18,
            side: at / 9 % 2,
            r: at % 9 + 1,
            data,
        }
    }

    /// What it has to give, and the image afterwards: with the cells laid over
    /// the side, and refused if then some sector of all 1,440 gives what it
    /// must not.
    fn by_rule(&self, hfe: &[u8]) -> ([usize; 4], Vec<u8>) {
        let Call { track, side, r, .. } = *self;
        let [t, s, n] = [track, side, r].map(|number| number as u8);
        let id = SectorId {
            track: t,
            side: s,
            r: n,
        };
        let cells = cells_of(hfe, track, side);
        let place = match present_field(&cells, find_header(&cells, id)) {
            Ok((place, _)) => place,
            Err(number) => return ([number.into(), track, side, r], hfe.to_vec()),
        };
        let unit = good_entry(hfe, track).unwrap().start / UNIT;
        let mut after = hfe.to_vec();
        lay(
            &mut after,
            unit,
            side,
            &with_data(&cells, place, &self.data),
        );
        match given(&after) == given_with(hfe, track, side, r, &self.data) {
            true => (DONE, after),
            false => (MISREAD, hfe.to_vec()),
        }
    }

    /// Makes it and compares reply and image; and where it is done, what unpack
    /// says of the result with what the sectors gave before. Gives the number.
    fn compare(&self, hfe: &[u8]) -> usize {
        let Call { track, side, r, .. } = *self;
        let expected = self.by_rule(hfe);
        let (reply, after) = rewrite(hfe, track, side, r, &self.data);
        assert_eq!(reply, expected.0, "{self:?}");
        assert!(after == expected.1, "another image");
        if reply == DONE {
            assert_unpacked(&after, &given_with(hfe, track, side, r, &self.data));
        }
        reply[0]
    }
}

/// Asserts that unpack gives these sectors, or names the first that is refused.
fn assert_unpacked(hfe: &[u8], sectors: &[Given]) {
    let bad = sectors.iter().position(Result::is_err);
    let expected = bad.map_or(DONE, |at| {
        let number = sectors[at].map_or_else(usize::from, |_| 0);
        [number, at / 18, at / 9 % 2, at % 9 + 1]
    });
    let (reply, image) = unpack_into(hfe, pattern());
    assert_eq!(reply, expected);
    if reply == DONE {
        let all = image.chunks(512).zip(sectors);
        assert!(all
            .into_iter()
            .all(|(data, given)| *given == Ok(data.try_into().unwrap())));
    }
}

/// A side of some sectors in any order, some of them changed. The end of one
/// may be lost, so that the next begins in it, and a header more may stand
/// before a sector, with the last two of its cells in common.
fn random_side(generator: &mut Generator, track: u8, side: u8) -> Vec<u8> {
    let all = good_sectors(track, side, generator.below(1000) as u32);
    let mut cells = Vec::new();
    for _ in 0..1 + generator.below(4) {
        let mut sector: Sector = generator.choice(&all).clone();
        if generator.below(3) == 0 {
            change(generator, &mut sector);
        }
        match generator.below(4) {
            0 => {
                let most = *generator.choice(&[20, 9000]);
                let lost = generator.below(most);
                cells.truncate(cells.len().saturating_sub(lost));
                sector.before.clear();
            }
            1 => {
                let r = 1 + generator.below(9) as u8;
                sector.before = header_of([track, side, r, 2])[..HEADER - 2].to_vec();
            }
            _ => (),
        }
        cells.extend(sector.cells());
    }
    cells.extend(
        noise(generator.below(1000) as u32, generator.below(30))
            .iter()
            .map(|byte| byte & 1),
    );
    cells.truncate(cells.len() / 8 * 8);
    pack_cells(&cells)
}

/// An image of three tracks, of which one may have another's units, all or
/// from the second on.
pub fn random_image(generator: &mut Generator) -> Vec<u8> {
    let mut hfe = empty_tracks();
    for track in 0..3 {
        let c = if generator.below(4) == 0 { 0 } else { track };
        let sides = [0, 1].map(|side| random_side(generator, c, side));
        move_track(&mut hfe, track.into(), &sides);
    }
    let first = good_entry(&hfe, 0).unwrap();
    match generator.below(3) {
        0 => set_entry(&mut hfe, 1, 1, first.start / UNIT, first.len),
        1 if first.len > UNIT => {
            set_entry(&mut hfe, 1, 1, first.start / UNIT + 1, first.len - UNIT)
        }
        _ => (),
    }
    hfe
}

/// How often each number was given.
type Counts = BTreeMap<usize, u32>;

/// A rewrite gives what the rule says of its result (§8.17), whatever the
/// image: sectors that share headers, fields, cells and units.
#[test]
fn built_images() {
    let mut generator = Generator::new(201);
    let mut counts = Counts::new();
    let usual = 150;
    for case in 0..cases(usual) {
        println!("case {case}");
        let hfe = random_image(&mut generator);
        for _ in 0..4 {
            let call = Call::random(&mut generator, &hfe, 3);
            *counts.entry(call.compare(&hfe)).or_insert(0) += 1;
        }
    }
    println!("numbers given: {counts:?}");
    if counts.values().sum::<u32>() >= 4 * usual {
        let given: Vec<usize> = counts.into_keys().collect();
        assert_eq!(given, [0, 4, 5, 6, 17]);
    }
}

/// One track of a packed disk, damaged or not, and the sides as `side_bytes`
/// makes them: what is not refused gives its data, and unpack says of the rest
/// what it said before (§8.15).
#[test]
fn tracks_with_damage() {
    let mut generator = Generator::new(202);
    let written = sides(&packed(), 0);
    let built = [0, 1].map(|side| side_bytes(&good_sectors(0, side, 7)));
    let mut done = 0;
    let usual = 40;
    for case in 0..cases(usual) {
        println!("case {case}");
        let mut sides = generator.choice(&[written.clone(), built.clone()]).clone();
        for _ in 0..generator.below(200) {
            let side = &mut sides[generator.below(2)];
            let place = generator.below(side.len());
            side[place] ^= 1 << generator.below(8);
        }
        let hfe = track_0(&sides);
        let call = Call::random(&mut generator, &hfe, 1);
        done += u32::from(call.compare(&hfe) == 0);
    }
    println!("{done} done");
    assert!(cases(usual) < usual || done > usual / 2);
}

/// A few on whole disks, which unpack accepts (§8.15).
#[test]
fn whole_disks() {
    let mut generator = Generator::new(203);
    for case in 0..cases(2) {
        println!("case {case}");
        let hfe = packed();
        let call = Call::random(&mut generator, &hfe, 80);
        assert_eq!(call.compare(&hfe), 0);
    }
}
