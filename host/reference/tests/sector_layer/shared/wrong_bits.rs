//! Wrong bits in one sector of a packed disk: those that the CRC always
//! finds, which are refused at this sector, and the least that it does not.

use super::answer::{assert_unpacks, unpack, unpack_into};
use super::build::{cell_byte, disk, in_sector, packed, pattern, sides, track_0, TRACK_0_GOOD};
use super::spoil::{AFTER, DATA, DATA_MARK, FIELD_SYNC, GAP, SYNC};
use std::sync::OnceLock;
use support::cases::cases;
use support::noise::Generator;

/// Data bits of a field from its mark on: the mark, 512 bytes, the CRC.
const BITS: usize = 8 * (AFTER - DATA_MARK);

/// Cells of a byte, of which the odd ones are data cells.
const CELLS: usize = 16;

/// Track 0 of the packed disk, at its place in an image whose other tracks
/// are empty, so that judging it takes little time.
fn first_track() -> &'static [u8] {
    static TRACK: OnceLock<Vec<u8>> = OnceLock::new();
    TRACK.get_or_init(|| track_0(&sides(&packed(), 0)))
}

#[derive(Clone, Copy, Debug)]
struct Sector {
    track: usize,
    side: usize,
    r: usize,
}

impl Sector {
    fn random(generator: &mut Generator, tracks: usize) -> Sector {
        Sector {
            track: generator.below(tracks),
            side: generator.below(2),
            r: 1 + generator.below(9),
        }
    }

    /// The image with these cells of the sector inverted, counted from the
    /// first one of its byte `index`.
    fn damaged(self, image: &[u8], index: usize, cells: &[usize]) -> Vec<u8> {
        let mut hfe = image.to_vec();
        for cell in cells {
            let place = 8 * in_sector(self.r, index) + cell;
            hfe[cell_byte(self.track, self.side, place / 8)] ^= 1 << (place % 8);
        }
        hfe
    }

    /// Asserts that the image is refused at this sector where these cells
    /// are inverted, counted from the data mark; at least one is a data
    /// cell.
    fn assert_found(self, image: &[u8], cells: &[usize]) {
        let in_mark = cells.iter().any(|&cell| cell < CELLS && cell % 2 == 1);
        let number = if in_mark { 6 } else { 7 };
        let reply = unpack(&self.damaged(image, DATA_MARK, cells));
        assert_eq!(reply, self.refusal(number), "{self:?}, cells {cells:?}");
    }

    fn refusal(self, number: usize) -> [usize; 4] {
        [number, self.track, self.side, self.r]
    }
}

/// The data cells of these bits.
fn data_cells(bits: &[usize]) -> Vec<usize> {
    bits.iter().map(|bit| 2 * bit + 1).collect()
}

/// So many different numbers below the limit.
fn different(generator: &mut Generator, count: usize, limit: usize) -> Vec<usize> {
    let mut numbers: Vec<usize> = Vec::new();
    while numbers.len() < count {
        let number = generator.below(limit);
        if !numbers.contains(&number) {
            numbers.push(number);
        }
    }
    numbers
}

/// Some of the `width` numbers from `first` on that are below the limit, the
/// first one always.
fn some_of(generator: &mut Generator, first: usize, width: usize, limit: usize) -> Vec<usize> {
    let mut numbers = vec![first];
    for number in first + 1..limit.min(first + width) {
        if generator.below(2) == 0 {
            numbers.push(number);
        }
    }
    numbers
}

/// Inverts each data cell of header and field by itself.
fn every_data_cell(side: usize, r: usize) {
    let sector = Sector { track: 0, side, r };
    for index in (SYNC..GAP).chain(FIELD_SYNC..AFTER) {
        let number = match index {
            0..GAP => 4,
            GAP..=DATA_MARK => 6,
            _ => 7,
        };
        for cell in (1..CELLS).step_by(2) {
            let reply = unpack(&sector.damaged(first_track(), index, &[cell]));
            assert_eq!(reply, sector.refusal(number), "byte {index}, cell {cell}");
        }
    }
}

/// A bit that is read otherwise than recorded is noticed (§10.1).
#[test]
fn every_data_cell_of_the_first_sector() {
    every_data_cell(0, 1);
}

#[test]
fn every_data_cell_of_the_last_sector_of_a_track() {
    every_data_cell(1, 9);
}

/// Random cells, counted from the data mark, in random sectors of track 0.
fn random_cells(seed: u32, usual: u32, cells: impl Fn(&mut Generator) -> Vec<usize>) {
    assert_eq!(unpack(first_track()), TRACK_0_GOOD);
    let mut generator = Generator::new(seed);
    for case in 0..cases(usual) {
        println!("case {case}");
        let sector = Sector::random(&mut generator, 1);
        sector.assert_found(first_track(), &cells(&mut generator));
    }
}

/// A burst of up to 16 data bits.
fn burst(generator: &mut Generator) -> Vec<usize> {
    let first = generator.below(BITS);
    data_cells(&some_of(generator, first, 16, BITS))
}

/// Wrong bits among 16 neighbouring ones (§10.2).
#[test]
fn bursts_of_up_to_16_data_bits() {
    random_cells(91, 400, burst);
}

#[test]
fn bursts_of_up_to_32_cells() {
    random_cells(92, 400, |generator| {
        let first = generator.below(2 * BITS);
        let mut cells = some_of(generator, first, 32, 2 * BITS);
        // One data cell at least: the first one, or the one after it.
        cells.push(first | 1);
        cells.sort_unstable();
        cells.dedup();
        cells
    });
}

/// Three wrong bits at most (§10.2).
#[test]
fn one_two_and_three_bits_anywhere() {
    random_cells(93, 400, |generator| {
        let count = 1 + generator.below(3);
        data_cells(&different(generator, count, BITS))
    });
}

/// An odd number of wrong bits (§10.2).
#[test]
fn odd_numbers_of_bits_anywhere() {
    random_cells(94, 100, |generator| {
        let count = 5 + 2 * generator.below(500);
        data_cells(&different(generator, count, BITS))
    });
}

/// A field with a wrong bit is refused, by its mark or its CRC (§10.3).
#[test]
fn sectors_all_over_the_disk() {
    let mut generator = Generator::new(95);
    for case in 0..cases(10) {
        println!("case {case}");
        let sector = Sector::random(&mut generator, 80);
        sector.assert_found(&packed(), &burst(&mut generator));
    }
}

#[test]
fn clock_cells_of_a_field_do_not_count() {
    let mut generator = Generator::new(96);
    let sector = Sector::random(&mut generator, 80);
    let bits = different(&mut generator, 16, BITS);
    let clocks: Vec<usize> = bits.iter().map(|bit| 2 * bit).collect();
    assert_unpacks(&sector.damaged(&packed(), DATA_MARK, &clocks), disk());
}

/// The four wrong bits among 17 that pass: the polynomial's, from the highest
/// term down.
const PASSING: [usize; 4] = [0, 4, 11, 16];

/// Four wrong bits among 17 can pass (§10.2).
#[test]
fn four_bits_among_seventeen_are_delivered() {
    // The first data bits, some in the midst, and the last ones with bits of
    // the CRC.
    for (track, side, r, first) in [(0, 0, 1, 0), (3, 1, 5, 2001), (79, 1, 9, 8 * 512 - 5)] {
        let bits = PASSING.map(|bit| first + bit);
        let mut changed = disk().to_vec();
        for bit in bits.iter().filter(|&&bit| bit < 8 * 512) {
            let place = 512 * (18 * track + 9 * side + r - 1) + bit / 8;
            changed[place] ^= 0x80 >> (bit % 8);
        }
        assert!(changed != disk());
        let sector = Sector { track, side, r };
        let hfe = sector.damaged(&packed(), DATA, &data_cells(&bits));
        assert_unpacks(&hfe, &changed);
        // Any three of the four are refused.
        for left_out in 0..4 {
            let mut three = bits.to_vec();
            three.remove(left_out);
            let hfe = sector.damaged(&packed(), DATA, &data_cells(&three));
            assert_eq!(unpack(&hfe), sector.refusal(7));
        }
    }
}

/// Asserts that the disk is refused at this track and side, or unpacks to
/// what was packed.
fn assert_refused_or_same(hfe: &[u8], track: usize, side: usize) {
    let (reply, image) = unpack_into(hfe, pattern());
    match reply {
        [0, 0, 0, 0] => assert!(image == disk(), "other bytes than were packed"),
        [4..=7, t, s, 1..=9] => assert_eq!([t, s], [track, side]),
        _ => panic!("{reply:?}"),
    }
}

/// Refused, or the recorded bytes: one burst (§10.5),
/// which is a case of damage anywhere (§10.4).
#[test]
fn bursts_of_up_to_32_cells_anywhere_on_a_side() {
    let mut generator = Generator::new(97);
    for case in 0..cases(80) {
        println!("case {case}");
        let sector = Sector::random(&mut generator, 2);
        // About a header, about a field's sync bytes, or anywhere.
        let (index, range) = match case % 4 {
            0 => (SYNC - 2, CELLS * 12),
            1 | 2 => (FIELD_SYNC - 2, CELLS * 8),
            _ => (0, CELLS * 640),
        };
        let first = generator.below(range);
        let cells = some_of(&mut generator, first, 32, usize::MAX);
        let hfe = sector.damaged(&packed(), index, &cells);
        assert_refused_or_same(&hfe, sector.track, sector.side);
    }
}
