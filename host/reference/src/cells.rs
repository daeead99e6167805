//! Cells in bytes: the stream of a side within a track's part of an HFE
//! image, the stream of a plain buffer, and the way back to bytes.

/// Bytes in one unit of an HFE image (§2.1).
pub const UNIT_LEN: usize = 512;

/// Bytes in a unit that belong to one side.
pub const HALF_UNIT_LEN: usize = 256;

/// Number of bytes one side has in a track of `track_len` bytes (§2.6).
pub fn side_len(track_len: usize) -> usize {
    track_len / 2
}

/// Where byte `index` of `side` (0 or 1) stands in a track's part.
///
/// Side 0 has the first half of each unit and side 1 the second (§2.6). The
/// last unit is no exception: both halves are filled from their own start.
pub fn place_in_part(side: usize, index: usize) -> usize {
    let unit = index / HALF_UNIT_LEN;
    let within = index % HALF_UNIT_LEN;
    UNIT_LEN * unit + HALF_UNIT_LEN * side + within
}

/// The bytes of one side, in order.
///
/// `part` begins at the track's offset and holds at least all its units;
/// `track_len` is the length of both sides together, as the table gives it.
/// Panics if the side is not 0 or 1, or the part is too short.
pub fn side_bytes(part: &[u8], track_len: usize, side: usize) -> Vec<u8> {
    assert!(side < 2, "a track has two sides");
    (0..side_len(track_len))
        .map(|index| part[place_in_part(side, index)])
        .collect()
}

/// The cells of one side of a version 1 image as a line, each 0 or 1, first cell
/// first (§3.2).
///
/// Takes and demands the same as [`side_bytes`].
pub fn side_cells(part: &[u8], track_len: usize, side: usize) -> Vec<u8> {
    buffer_cells(&side_bytes(part, track_len, side))
}

/// The cells of a plain buffer, those of each byte in turn.
pub fn buffer_cells(bytes: &[u8]) -> Vec<u8> {
    let mut cells = Vec::new();
    for byte in bytes {
        cells.extend(byte_cells(*byte));
    }
    cells
}

/// The eight cells of a byte: the lowest bit comes first (§3.1).
pub fn byte_cells(byte: u8) -> [u8; 8] {
    let mut cells = [0; 8];
    for (bit, cell) in cells.iter_mut().enumerate() {
        *cell = (byte >> bit) & 1;
    }
    cells
}

/// Packs cells into bytes, the first cell of each eight in the lowest bit (§3.1).
///
/// If the last byte is not filled, its unused bits are 0.
pub fn pack_cells(cells: &[u8]) -> Vec<u8> {
    let mut bytes = Vec::new();
    for eight in cells.chunks(8) {
        let mut byte = 0;
        for (bit, cell) in eight.iter().enumerate() {
            byte |= cell << bit;
        }
        bytes.push(byte);
    }
    bytes
}
