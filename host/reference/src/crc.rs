//! The CRC of headers and data fields, one bit at a time.

/// The polynomial, without its highest term.
pub const POLYNOMIAL: u16 = 0x1021;

/// The CRC of no bytes.
pub const START: u16 = 0xFFFF;

/// The CRC after one more data bit (§3.8).
pub fn after_bit(crc: u16, bit: u8) -> u16 {
    let highest = (crc >> 15) as u8;
    let shifted = crc << 1;
    if highest == bit {
        shifted
    } else {
        shifted ^ POLYNOMIAL
    }
}

/// The CRC of all the bytes, the highest bit of each first (§3.8). After bytes
/// and their own CRC it is 0 (§10.1), and after
/// detectable damage of these it is not (§10.2).
pub fn crc16(bytes: &[u8]) -> u16 {
    let mut crc = START;
    for byte in bytes {
        for index in 0..8 {
            crc = after_bit(crc, (byte >> (7 - index)) & 1);
        }
    }
    crc
}

/// The CRC over the three sync bytes, a mark, and what follows the mark (§3.9).
pub fn crc_of_field(mark: u8, body: &[u8]) -> u16 {
    let mut bytes = vec![0xA1, 0xA1, 0xA1, mark];
    bytes.extend_from_slice(body);
    crc16(&bytes)
}
