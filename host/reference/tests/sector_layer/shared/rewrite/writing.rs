//! Which cells a rewrite writes, and what it writes there.

use super::answer::{assert_unpacks, pack_into, rewrite, unpack};
use super::build::{cell_byte, disk, in_sector, packed};
use super::side::{gap_cells, random_cells};
use super::spoil::{spoil, DATA, DATA_CRC};
use super::{
    assert_writes, cells_of, data_ending, field, field_with, filled, header, on_side_0, with_data,
    DONE, FIELD, HEADER, RUN_AND_MARK, WRITTEN,
};
use reference::pack::HFE_LEN;
use support::cases::cases;
use support::noise::{noise, Generator};

/// A sector R 3 after so many cells, with so many in its gap, and what follows
/// it; and where its data begin.
fn sector(before: usize, gap: usize, field: &[u8], after: &[u8]) -> (Vec<u8>, usize) {
    let header = header(3);
    let cells = [&gap_cells(before), &header, &gap_cells(gap), field, after].concat();
    (cells, before + HEADER + gap + RUN_AND_MARK)
}

/// After FB the cells of the data and of their CRC are written (§8.16): the
/// first clock cell is 0 whatever the first bit is, since FB ends with 1.
#[test]
fn data_and_crc_after_the_mark() {
    let (cells, place) = sector(100, 544, &field(&noise(1, 512)), &[]);
    let cells = filled(cells);
    for first in [0x00, 0x7F, 0x80, 0xFF] {
        let data = [&[first], &noise(2, 511)[..]].concat();
        assert_writes(&cells, place, 3, &data);
        let after = rewrite(&on_side_0(&cells), 0, 0, 3, &data).1;
        assert_eq!(cells_of(&after, 0, 0)[place], 0);
    }
}

/// A field may begin at any cell place, even or odd, and end within a byte;
/// the cells about it stay (§8.16).
#[test]
fn fields_at_all_places_within_a_byte() {
    let old = field(&noise(1, 512));
    for slip in 0..17 {
        for gap in [0, 1, 543, 688] {
            let (cells, place) = sector(slip, gap, &old, &[1, 1, 0]);
            assert_writes(&filled(cells), place, 3, &noise(3, 512));
        }
    }
}

/// Data that begin, and a CRC that ends, at or about the end of a unit's half,
/// after which the side goes on in the next unit (§2.6 §8.16).
#[test]
fn fields_about_the_end_of_a_unit() {
    let old = field(&noise(1, 512));
    let data = data_ending(0, 1);
    let half_unit = 8 * 256;
    for slip in 0..19 {
        for (end, shift) in [
            (half_unit, HEADER + RUN_AND_MARK),
            (5 * half_unit, HEADER + FIELD),
        ] {
            let (cells, place) = sector(end + slip - 9 - shift, 0, &old, &[]);
            let mut cells = filled(cells);
            // The data cell after the CRC is 0, so that the clock cell is set.
            cells[place + WRITTEN..place + WRITTEN + 2].fill(0);
            assert_writes(&cells, place, 3, &data);
        }
    }
}

/// No field is found after 688 cells, nor if it is not wholly within the side
/// (§4.4 §4.5): 6, and nothing is written.
#[test]
fn fields_that_are_not_present() {
    let old = field(&noise(1, 512));
    let late = filled(sector(0, 689, &old, &[]).0);
    let cut = sector(1, 543, &old[..FIELD - 8], &[]).0;
    for cells in [late, cut] {
        let reply = rewrite(&on_side_0(&cells), 0, 0, 3, &[5; 512]).0;
        assert_eq!(reply, [6, 0, 0, 3]);
    }
}

/// The clock cell after the CRC is written where two or more cells follow: 1
/// exactly between two bits that are 0. One cell alone stays (§8.16).
#[test]
fn field_at_the_end_of_the_side() {
    for bit in [0, 1] {
        let data = data_ending(bit, 1);
        for after in all_cells_up_to(4) {
            let before = (8 - (160 + FIELD + after.len()) % 8) % 8;
            let (cells, place) = sector(before, 0, &field(&noise(1, 512)), &after);
            assert_writes(&cells, place, 3, &data);
            let (_, hfe) = rewrite(&on_side_0(&cells), 0, 0, 3, &data);
            let left = cells_of(&hfe, 0, 0)[place + WRITTEN..].to_vec();
            let mut expected = after.clone();
            if after.len() >= 2 {
                expected[0] = u8::from(bit == 0 && after[1] == 0);
            }
            assert_eq!(left, expected, "bit {bit}, cells {after:?}");
        }
    }
}

/// All rows of at most so many cells.
fn all_cells_up_to(most: usize) -> Vec<Vec<u8>> {
    let rows = (0..=most).flat_map(|len| (0..1 << len).map(move |number| (len, number)));
    rows.map(|(len, number): (usize, usize)| (0..len).map(|at| (number >> at & 1) as u8).collect())
        .collect()
}

/// What the field has before does not count: its CRC may be wrong, and so may
/// its clock cells (§8.16).
#[test]
fn wrong_crc_and_wrong_clocks_before() {
    let mut generator = Generator::new(5);
    let good = field(&noise(1, 512));
    let noisy = [
        &good[..RUN_AND_MARK],
        &random_cells(&mut generator, WRITTEN),
    ]
    .concat();
    for old in [field_with(&noise(1, 512), 0x8000), noisy] {
        let (cells, place) = sector(3, 600, &old, &[]);
        let cells = filled(cells);
        assert_eq!(unpack(&on_side_0(&cells)), [4, 0, 0, 1]);
        assert_writes(&cells, place, 3, &noise(2, 512));
    }
    let mut hfe = packed();
    spoil(&mut hfe, 7, 50, 1, 6);
    assert_eq!(unpack(&hfe), [7, 50, 1, 6]);
    let number = 18 * 50 + 9 + 5;
    let (reply, after) = rewrite(&hfe, 50, 1, 6, &disk()[512 * number..512 * (number + 1)]);
    assert_eq!(reply, DONE);
    assert!(after == packed());
}

/// The same bytes are written like others: a packed image stays as it is, and
/// wrong clock cells in the field are put right (§8.16).
#[test]
fn same_bytes_again() {
    for (track, side, r) in [(0, 0, 1), (31, 1, 4), (79, 1, 9)] {
        let number = 18 * track + 9 * side + r - 1;
        let data = &disk()[512 * number..512 * (number + 1)];
        let mut hfe = packed();
        assert!(rewrite(&hfe, track, side, r, data) == (DONE, packed()));
        for index in [DATA, DATA + 300, DATA_CRC + 1] {
            hfe[cell_byte(track, side, in_sector(r, index))] ^= 0x55;
        }
        assert_unpacks(&hfe, disk());
        assert!(rewrite(&hfe, track, side, r, data) == (DONE, packed()));
    }
}

/// On a packed image a rewrite gives the packing of the block image that has
/// the data in this sector (§8.15).
#[test]
fn packed_disk() {
    let all = [
        (0, 0, 1, noise(21, 512)),
        (0, 1, 9, vec![0x00; 512]),
        (40, 0, 5, vec![0xFF; 512]),
        (41, 1, 1, vec![0xA1; 512]),
        (79, 0, 9, vec![0x4E; 512]),
        (79, 1, 9, noise(22, 512)),
    ];
    let (mut image, mut hfe) = (disk().to_vec(), packed());
    for (track, side, r, data) in all {
        let (reply, after) = rewrite(&hfe, track, side, r, &data);
        assert_eq!(reply, DONE);
        let at = 512 * (18 * track + 9 * side + r - 1);
        image[at..at + 512].copy_from_slice(&data);
        assert!(
            after == pack_into(&image, &vec![0; HFE_LEN]).1,
            "{track} {side} {r}"
        );
        hfe = after;
    }
    assert_unpacks(&hfe, &image);
}

/// The bits of an image that differ, by byte and bit.
fn different_bits(before: &[u8], after: &[u8]) -> Vec<(usize, usize)> {
    let bits = (0..8 * before.len()).map(|number| (number / 8, number % 8));
    bits.filter(|&(byte, bit)| (before[byte] ^ after[byte]) >> bit & 1 == 1)
        .collect()
}

/// Every cell stays but the 8,224 of data and CRC and the clock cell after
/// them, compared bit by bit over the whole image (§8.16).
#[test]
fn every_other_cell_stays() {
    let mut generator = Generator::new(77);
    for case in 0..cases(12) {
        println!("case {case}");
        let [track, side, r] = [80, 2, 9].map(|limit| generator.below(limit));
        let hfe = packed();
        let (reply, after) = rewrite(&hfe, track, side, r + 1, &noise(case, 512));
        assert_eq!((reply, after.len()), (DONE, hfe.len()));
        let first = 8 * in_sector(r + 1, DATA);
        let written: Vec<(usize, usize)> = (first..=first + WRITTEN)
            .map(|cell| (cell_byte(track, side, cell / 8), cell % 8))
            .collect();
        let changed = different_bits(&hfe, &after);
        assert!(changed.len() > 1000, "other data have other cells");
        assert!(changed.iter().all(|bit| written.contains(bit)));
    }
}

/// The cells of a side with noise about a sector: those that are not written
/// stay whatever they are (§8.16).
#[test]
fn noise_about_the_field_stays() {
    let mut generator = Generator::new(78);
    for case in 0..cases(60) {
        println!("case {case}");
        let [before, gap, after] = [300, 689, 40].map(|limit| generator.below(limit));
        let old = field_with(&noise(case, 512), generator.below(65_536) as u16);
        let mut cells = [
            random_cells(&mut generator, before),
            header(3),
            random_cells(&mut generator, gap),
            old,
            random_cells(&mut generator, after),
        ]
        .concat();
        let place = before + HEADER + gap + RUN_AND_MARK;
        cells.resize(cells.len().div_ceil(8) * 8, 0);
        assert_writes(&cells, place, 3, &noise(case + 1, 512));
        let again = with_data(&cells, place, &noise(case + 1, 512));
        assert_writes(&again, place, 3, &noise(case + 1, 512));
    }
}
