//! Three sync bytes that arise where none were recorded, and what a client's
//! data can make of them: the damage that no promise covers.

use super::answer::{assert_refused, assert_unpacks, pack_into};
use super::build::{cell_byte, disk, in_sector};
use super::spoil::{DATA, FIELD_SYNC, SYNC};
use reference::crc::{crc16, crc_of_field};
use reference::pack::HFE_LEN;

/// A sector's number of bytes.
const LEN: usize = 512;

/// What `pack` writes after the 512 bytes and their CRC.
const GAP_BYTE: u8 = 0x4E;

/// Three bytes with the data of sync bytes.
const SYNC_DATA: [u8; 3] = [0xA1; 3];

/// The first bytes, which are free and make the field's CRC hold.
const FREE: usize = 2;

/// Data of the first sector that have the bytes of a data field after the free
/// bytes and `before`.
fn data_with_field(before: &[u8]) -> Vec<u8> {
    let mut data = [&[0; FREE][..], before, &SYNC_DATA, &[0xFB]].concat();
    data.resize(LEN, b'x');
    for free in 0..=u16::MAX {
        data[..FREE].copy_from_slice(&free.to_be_bytes());
        if crc16(&field_in_data(&data, before)) == u16::from_be_bytes([GAP_BYTE; 2]) {
            return data;
        }
    }
    panic!("no two bytes make the CRC hold");
}

/// The bytes of that field, from its sync bytes on: the rest of the data, the
/// CRC that `pack` puts after them, and bytes of the gap, of which the two
/// after these are its CRC.
fn field_in_data(data: &[u8], before: &[u8]) -> Vec<u8> {
    let crc = crc_of_field(0xFB, data).to_be_bytes();
    let mut field = [&data[FREE + before.len()..], &crc].concat();
    field.resize(4 + LEN, GAP_BYTE);
    field
}

/// The disk with these data of the first sector, and its HFE image.
fn packed_with(data: &[u8]) -> (Vec<u8>, Vec<u8>) {
    let mut image = disk().to_vec();
    image[..data.len()].copy_from_slice(data);
    let (reply, hfe) = pack_into(&image, &vec![0; HFE_LEN]);
    assert_eq!(reply, [0; 4]);
    assert_unpacks(&hfe, &image);
    (image, hfe)
}

/// Inverts the clock cell that sync bytes leave out, in a byte of a sector of
/// track 0, side 0.
fn invert_clock(hfe: &mut [u8], r: usize, index: usize) {
    let place = 8 * in_sector(r, index) + 10;
    hfe[cell_byte(0, 0, place / 8)] ^= 1 << (place % 8);
}

/// A new run is what damage must not bring (§10.4).
#[test]
fn four_clock_cells_make_a_field_of_data() {
    let data = data_with_field(&[]);
    let (mut image, mut hfe) = packed_with(&data);
    for index in 0..3 {
        invert_clock(&mut hfe, 1, DATA + FREE + index);
    }
    // The field's own sync bytes are the first run.
    assert_unpacks(&hfe, &image);
    // With one of them lost those in the data are. No data bit is wrong.
    invert_clock(&mut hfe, 1, FIELD_SYNC);
    image[..LEN].copy_from_slice(&field_in_data(&data, &[])[4..]);
    assert_unpacks(&hfe, &image);
}

#[test]
fn seven_clock_cells_make_a_sector_of_data() {
    let chrn = [0, 0, 2, 2];
    let crc = crc_of_field(0xFE, &chrn).to_be_bytes();
    let header = [&SYNC_DATA[..], &[0xFE], &chrn, &crc].concat();
    let data = data_with_field(&header);
    let (mut image, mut hfe) = packed_with(&data);
    for index in [0, 1, 2, 10, 11, 12] {
        invert_clock(&mut hfe, 1, DATA + FREE + index);
    }
    // Two headers of sector 2.
    assert_refused(&hfe, [5, 0, 0, 2]);
    // With its own lost the other is the only one. No data bit is wrong.
    invert_clock(&mut hfe, 2, SYNC);
    image[LEN..2 * LEN].copy_from_slice(&field_in_data(&data, &header)[4..]);
    assert_unpacks(&hfe, &image);
}
