//! Codes among the bytes of a side (§2.7, §2.8, §2.9).

use crate::build::noise;
use reference::cells::buffer_cells;
use reference::codes::{coded_cells, reversed_bits, WrongCode};
use support::codes::{looks_like_code, COUNTS, INDEX, NOTHING, RATE, SKIP, WEAK};

/// Asserts that bytes give the cells of these, which have no codes.
fn assert_cells(bytes: &[u8], plain: &[u8]) {
    assert_eq!(coded_cells(bytes), Ok(buffer_cells(plain)), "{bytes:02X?}");
}

/// Asserts that the code at this place is wrong.
fn assert_wrong(bytes: &[u8], place: usize) {
    assert_eq!(coded_cells(bytes), Err(WrongCode(place)), "{bytes:02X?}");
}

/// Codes and counts have the first cell as their highest bit (§2.7).
#[test]
fn stored_codes_and_counts() {
    let codes = [NOTHING, INDEX, RATE, SKIP, WEAK];
    assert_eq!(codes.map(reversed_bits), [0xF0, 0xF1, 0xF2, 0xF3, 0xF4]);
    assert_eq!(COUNTS.map(reversed_bits), [0, 1, 2, 3, 4, 5, 6, 7]);
    assert_eq!((reversed_bits(0xFF), reversed_bits(0x01)), (0xFF, 0x80));
}

/// A byte that belongs to no code is one exactly if its lowest four bits are 1;
/// all others give their eight cells (§2.7 §2.8).
#[test]
fn every_byte_alone() {
    for byte in 0..=255 {
        match byte {
            NOTHING | INDEX => assert_cells(&[byte], &[]),
            byte if looks_like_code(byte) => assert_wrong(&[byte], 0),
            byte => assert_cells(&[byte], &[byte]),
        }
    }
}

/// Nothing and index give no cells (§2.8) and begin nothing, wherever they
/// stand.
#[test]
fn codes_without_effect() {
    for code in [NOTHING, INDEX] {
        assert_cells(&[code], &[]);
        assert_cells(&[code, code, code], &[]);
        assert_cells(&[code, 0x12, code, 0x34, code], &[0x12, 0x34]);
    }
    assert_cells(&[], &[]);
}

/// A bit rate is any byte and gives no cells (§2.7 §2.8).
#[test]
fn every_bit_rate() {
    for rate in 0..=255 {
        assert_cells(&[RATE, rate], &[]);
        assert_cells(&[0x12, RATE, rate, 0x34], &[0x12, 0x34]);
    }
    assert_cells(&[RATE, RATE, RATE, RATE, 0x12], &[0x12]);
}

/// After a count of n the n lowest bits of the next byte give no cells (§2.8),
/// whatever they are.
#[test]
fn every_count_before_every_byte() {
    for (dropped, count) in COUNTS.into_iter().enumerate() {
        for byte in 0..=255 {
            let all = buffer_cells(&[byte]);
            let bytes = [SKIP, count, byte];
            assert_eq!(coded_cells(&bytes), Ok(all[dropped..].to_vec()));
        }
    }
    // By hand: of 1100 1010, lowest first, without the first three.
    assert_eq!(coded_cells(&[SKIP, 0xC0, 0x53]), Ok(vec![0, 1, 0, 1, 0]));
}

/// The byte after a count is data (§2.7), and the one after that is judged
/// anew.
#[test]
fn what_looks_like_a_code_after_a_count() {
    for byte in (0x0F..=0xFF).step_by(16) {
        assert_cells(&[SKIP, 0x00, byte, 0x12], &[byte, 0x12]);
        assert_cells(&[SKIP, 0x00, byte, NOTHING], &[byte]);
        assert_wrong(&[SKIP, 0x00, byte, WEAK], 3);
    }
    let twice = [SKIP, 0x00, SKIP, SKIP, 0x00, SKIP];
    assert_cells(&twice, &[SKIP, SKIP]);
}

/// A count is 0 to 7 as it is read; the F3 of any other is wrong, also where
/// the side ends with it (§2.9).
#[test]
fn every_count() {
    for count in 0..=255 {
        let place = 2;
        for after in [&[][..], &[0x12], &[0x12, WEAK]] {
            let bytes = [&[0x12, 0x34, SKIP, count], after].concat();
            let expected = match after {
                _ if !COUNTS.contains(&count) => Some(place),
                [] => Some(place),
                [_] => None,
                _ => Some(5),
            };
            assert_eq!(coded_cells(&bytes).err(), expected.map(WrongCode));
        }
    }
}

/// F4 to FF are wrong; of several wrong codes the first is named (§2.9).
#[test]
fn first_wrong_code() {
    for code in 0xF4..=0xFF {
        let code = reversed_bits(code);
        assert_wrong(&[code], 0);
        assert_wrong(&[0x12, NOTHING, RATE, 0x33, code, WEAK, SKIP], 4);
    }
}

/// A code whose bytes the side does not have is wrong (§2.9).
#[test]
fn codes_cut_by_the_end() {
    for before in [&[][..], &[0x12], &[NOTHING; 3], &[RATE, RATE]] {
        for cut in [&[RATE][..], &[SKIP], &[SKIP, 0x00], &[SKIP, 0xE0]] {
            assert_wrong(&[before, cut].concat(), before.len());
        }
    }
}

/// Sides of codes alone have no cells (§2.8); without codes they have those of
/// all bytes.
#[test]
fn codes_alone_and_no_codes() {
    assert_cells(&[NOTHING, INDEX, RATE, 0xFF, INDEX], &[]);
    let plain: Vec<u8> = noise(3, 3000)
        .into_iter()
        .filter(|&byte| !looks_like_code(byte))
        .collect();
    assert_cells(&plain, &plain);
}
