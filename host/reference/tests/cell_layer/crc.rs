//! The CRC (§3.8, §3.9), and published values.

use reference::crc::{crc16, crc_of_field};

/// Start, polynomial and order of bits (§3.8).
#[test]
fn published_check_value() {
    assert_eq!(crc16(b"123456789"), 0x29B1);
}

#[test]
fn no_bytes_give_the_start() {
    assert_eq!(crc16(&[]), 0xFFFF);
}

/// The CRC of a header (§3.8 §3.9).
#[test]
fn header_of_the_first_sector() {
    let bytes = [0xA1, 0xA1, 0xA1, 0xFE, 0x00, 0x00, 0x01, 0x02];
    assert_eq!(crc16(&bytes), 0xCA6F);
    assert_eq!(crc_of_field(0xFE, &[0, 0, 1, 2]), 0xCA6F);
}

#[test]
fn known_values_after_sync_and_mark() {
    assert_eq!(crc16(&[0xA1, 0xA1, 0xA1]), 0xCDB4);
    assert_eq!(crc_of_field(0xFE, &[]), 0xB230);
    assert_eq!(crc_of_field(0xFB, &[]), 0xE295);
}

/// After bytes and their CRC the register is 0 (§10.1).
#[test]
fn crc_over_its_own_bytes_is_zero() {
    let mut bytes = b"123456789".to_vec();
    bytes.extend([0x29, 0xB1]);
    assert_eq!(crc16(&bytes), 0);
}

/// Four wrong bits among 17 can pass (§10.2).
#[test]
fn least_damage_that_passes() {
    // Four wrong bits among the 17 from bit 7 on.
    let (recorded, read) = ([0x00, 0xE1, 0xF0], [0x01, 0xF1, 0xD1]);
    assert_eq!(crc16(&recorded), 0);
    assert_eq!(crc16(&read), 0);
    let wrong = [0, 1, 2].map(|index: usize| recorded[index] ^ read[index]);
    assert_eq!(wrong, [0x01, 0x10, 0x21]);
}

/// Of all fillings of a stretch one in 65,536 passes (§10.2).
#[test]
fn one_filling_in_65536_passes() {
    // A header with its CRC. Two neighbouring bytes are put in anew in every
    // way, with the bit before them as it was, and with that bit wrong.
    let header = [0xA1, 0xA1, 0xA1, 0xFE, 39, 1, 7, 2];
    let crc = crc16(&header).to_be_bytes();
    let recorded = [&header[..], &crc[..]].concat();
    for place in [1, 4, 6, 8] {
        let mut passing = [0, 0];
        for filling in 0..=u16::MAX {
            let mut bytes = recorded.clone();
            bytes[place..place + 2].copy_from_slice(&filling.to_be_bytes());
            for (bit, count) in (0..).zip(&mut passing) {
                bytes[place - 1] = recorded[place - 1] ^ bit;
                *count += u32::from(crc16(&bytes) == 0);
            }
        }
        assert_eq!(passing, [1, 1], "from byte {place}");
    }
}
