//! Codes inside sync bytes, headers and data: the cells that they leave.

use super::answer::{assert_unpacks, pack_into, unpack};
use super::build::{disk, in_sector, TRACK_0_GOOD};
use super::spoil::{
    AFTER, DATA, DATA_CRC, DATA_MARK, FIELD_SYNC, GAP, HEADER_CRC, HEADER_MARK, SYNC,
};
use super::{
    coded_track_0, filled, in_two_parts, move_track, sides, spliced, track_0, version_3, written,
};
use reference::pack::HFE_LEN;
use support::codes::{COUNTS, INDEX, NOTHING, RATE, SKIP, WEAK};

/// Bytes of a sector, from the sync bytes of its header to what follows its
/// data.
const PLACES: [usize; 17] = [
    SYNC,
    SYNC + 1,
    SYNC + 2,
    HEADER_MARK,
    HEADER_MARK + 1,
    HEADER_MARK + 4,
    HEADER_CRC,
    HEADER_CRC + 1,
    GAP,
    FIELD_SYNC,
    FIELD_SYNC + 2,
    DATA_MARK,
    DATA,
    DATA + 300,
    DATA_CRC,
    DATA_CRC + 1,
    AFTER,
];

/// Asserts that track 0 is read with what `change` makes of a byte of its
/// sector 5, on either side; the byte is replaced.
fn assert_read(index: usize, half: usize, change: impl Fn(u8) -> Vec<u8>) {
    let at = in_sector(5, index) + half;
    for side in [0, 1] {
        let mut sides = written();
        let bytes = change(sides[side][at]);
        sides[side] = spliced(&sides[side], at, 1, &bytes);
        let reply = unpack(&coded_track_0(sides));
        assert_eq!(reply, TRACK_0_GOOD, "byte {index}, {half}: {bytes:02X?}");
    }
}

/// Nothing, index and bit rate (§2.7) give no cells (§2.8), wherever in a sector
/// they stand.
#[test]
fn codes_without_cells() {
    let codes = [
        &[NOTHING][..],
        &[INDEX],
        &[INDEX, NOTHING, INDEX],
        &[RATE, 0x12],
        &[RATE, RATE],
        &[RATE, SKIP, RATE, WEAK, NOTHING],
    ];
    for index in PLACES {
        for half in [0, 1] {
            for code in codes {
                assert_read(index, half, |byte| [code, &[byte]].concat());
            }
        }
    }
}

/// The byte after a count gives its cells without the first ones, the lowest
/// bits as stored (§2.8): each count from 0 to 7, wherever in a sector. A byte
/// is put together from the last cells of two, whose others would be wrong.
#[test]
fn bytes_in_two_parts() {
    for index in PLACES {
        for half in [0, 1] {
            assert_read(index, half, |byte| vec![SKIP, COUNTS[0], byte]);
            for count in 1..8 {
                assert_read(index, half, |byte| in_two_parts(byte, count));
            }
        }
    }
}

/// Where a code takes the place of a byte, that byte's cells are lost: in the
/// sync bytes of a header that is 4, in those of a field 6, in the data 7
/// (§2.8). The bit rate is the byte itself: were it data, no cells would be
/// lost.
#[test]
fn codes_in_place_of_a_byte() {
    for (index, number) in [(SYNC + 1, 4), (FIELD_SYNC + 1, 6), (DATA + 40, 7)] {
        let at = in_sector(1, index);
        let [side_0, side_1] = written();
        for code in [&[NOTHING][..], &[INDEX], &[RATE, side_0[at]]] {
            let sides = [spliced(&side_0, at, 1, code), side_1.clone()];
            let reply = unpack(&coded_track_0(sides));
            assert_eq!(reply, [number, 0, 0, 1], "{code:02X?}");
        }
    }
}

/// One cell less or more within a data field is a wrong CRC (§2.8).
#[test]
fn cells_lost_or_added() {
    let at = in_sector(1, DATA + 40);
    let [side_0, side_1] = written();
    let byte = side_0[at];
    let mut more = in_two_parts(byte, 4);
    more[1] = COUNTS[3];
    for bytes in [vec![SKIP, COUNTS[1], byte], more] {
        let side_0 = spliced(&side_0, at, 1, &bytes);
        let reply = unpack(&coded_track_0([side_0, side_1.clone()]));
        assert_eq!(reply, [7, 0, 0, 1], "{bytes:02X?}");
    }
}

/// A bit rate is any byte: all of them, one after the other, in the data of a
/// sector (§2.7).
#[test]
fn every_bit_rate() {
    let [side_0, side_1] = written();
    let at = in_sector(5, DATA);
    let rated: Vec<u8> = (0..=255)
        .zip(&side_0[at..at + 256])
        .flat_map(|(rate, byte)| [RATE, rate, *byte])
        .collect();
    let side_0 = spliced(&side_0, at, 256, &rated);
    assert_eq!(unpack(&coded_track_0([side_0, side_1])), TRACK_0_GOOD);
}

/// A code before each byte of a side (§2.8), or of half a side, which would be
/// too long for the table.
#[test]
fn code_before_every_byte() {
    let codes = [
        (&[NOTHING][..], 12_500),
        (&[INDEX], 12_500),
        (&[RATE, 0xA7], 6_000),
        (&[SKIP, 0x00], 6_000),
    ];
    for (code, count) in codes {
        let sides = written().map(|side| {
            let (first, last) = side.split_at(count);
            let coded = first.iter().flat_map(|byte| [code, &[*byte]].concat());
            coded.chain(last.iter().copied()).collect()
        });
        assert_eq!(unpack(&coded_track_0(sides)), TRACK_0_GOOD, "{code:02X?}");
    }
}

/// Data whose cells, with wrong clock cells, are the bytes F0 to FF as they
/// are stored, again and again: each has the data bits 1, 1 and its sixth and
/// eighth cell.
fn data_of_codes() -> ([u8; 16], Vec<u8>) {
    let codes: [u8; 16] = std::array::from_fn(|high| (16 * high + 15) as u8);
    let bits = codes.map(|code| 0b1100 | (code >> 5 & 1) << 1 | code >> 7);
    let data: Vec<u8> = bits
        .chunks(2)
        .map(|two| two[0] << 4 | two[1])
        .cycle()
        .take(512)
        .collect();
    (codes, data)
}

/// The disk with these data in sector 5 of track 0, side 0, and both sides.
fn disk_with(data: &[u8]) -> (Vec<u8>, Vec<u8>, [Vec<u8>; 2]) {
    let mut image = disk().to_vec();
    image[4 * 512..5 * 512].copy_from_slice(data);
    let (reply, hfe) = pack_into(&image, &vec![0; HFE_LEN]);
    assert_eq!(reply, [0; 4]);
    let sides = sides(&hfe, 0);
    (image, hfe, sides)
}

/// What follows F3 and its count is data, also where it is stored as one of the
/// sixteen codes (§2.7). In version 1 these bytes are cells as any others.
#[test]
fn bytes_that_look_like_codes() {
    let (codes, data) = data_of_codes();
    let (image, mut hfe, [side_0, side_1]) = disk_with(&data);
    let at = in_sector(5, DATA);
    let own: Vec<u8> = codes.into_iter().cycle().take(1024).collect();
    let plain = spliced(&side_0, at, 1024, &own);
    assert!(plain != side_0, "clock cells differ");
    move_track(&mut hfe, 0, &[plain, side_1.clone()]);
    assert_unpacks(&hfe, &image);

    let coded: Vec<u8> = own.iter().flat_map(|code| [SKIP, 0x00, *code]).collect();
    let coded = spliced(&side_0, at, 1024, &coded);
    move_track(&mut hfe, 0, &filled([coded, side_1]));
    assert_unpacks(&version_3(hfe), &image);
}

/// The same bytes without F3 before them are codes: of those that are right
/// some cells are missing, the others are wrong (§2.7 §2.9).
#[test]
fn the_same_bytes_as_codes() {
    let (codes, data) = data_of_codes();
    let (_, _, [side_0, side_1]) = disk_with(&data);
    for (index, code) in codes.into_iter().enumerate() {
        let at = in_sector(5, DATA) + index;
        let side_0 = spliced(&side_0, at, 1, &[code]);
        let sides = [side_0, side_1.clone()];
        assert_eq!(unpack(&track_0(&sides)), TRACK_0_GOOD, "version 1");
        // After F3 stands the next byte, AA or 2A or the like, as a count.
        let expected = match code {
            NOTHING | INDEX | RATE => [7, 0, 0, 5],
            _ => [18, 0, 0, at],
        };
        assert_eq!(unpack(&coded_track_0(sides)), expected, "{code:02X}");
    }
}
