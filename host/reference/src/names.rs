//! Which file names are equal.

/// A file name as it is compared: the bytes 41 to 5A (hex), A to Z, are read
/// as 61 to 7A, a to z, and all others as they are. Two names are equal if this
/// gives the same of both; then they have the same length (§6.14).
pub fn lowered(name: &[u8]) -> Vec<u8> {
    let read_as = |byte: u8| match byte {
        0x41..=0x5A => byte + 0x20,
        _ => byte,
    };
    name.iter().copied().map(read_as).collect()
}
