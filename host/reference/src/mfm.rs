//! MFM: bytes to cells, the two marks with a clock left out, and reading.

/// Cells of one byte: a clock cell and a data cell for each bit (§3.3).
pub const CELLS_PER_BYTE: usize = 16;

/// The data of a sync byte.
pub const SYNC_BYTE: u8 = 0xA1;

/// The cells of a sync byte, first cell highest (§3.5).
pub const SYNC_CELLS: u16 = 0x4489;

/// The data of an index mark byte.
pub const INDEX_BYTE: u8 = 0xC2;

/// The cells of an index mark byte, first cell highest (§3.5).
pub const INDEX_CELLS: u16 = 0x5224;

/// The sixteen cells of a word whose highest bit is the first cell.
pub fn word_cells(word: u16) -> [u8; CELLS_PER_BYTE] {
    let mut cells = [0; CELLS_PER_BYTE];
    for (index, cell) in cells.iter_mut().enumerate() {
        *cell = ((word >> (15 - index)) & 1) as u8;
    }
    cells
}

/// The clock cell between two data bits: 1 exactly if both are 0 (§3.4).
pub fn clock_cell(last_bit: u8, bit: u8) -> u8 {
    if last_bit == 0 && bit == 0 {
        1
    } else {
        0
    }
}

/// The cells of a byte that follows the data bit `last_bit`.
///
/// The highest bit of the byte comes first (§3.3).
pub fn encode_byte(byte: u8, last_bit: u8) -> [u8; CELLS_PER_BYTE] {
    let mut cells = [0; CELLS_PER_BYTE];
    let mut last = last_bit;
    for index in 0..8 {
        let bit = (byte >> (7 - index)) & 1;
        cells[2 * index] = clock_cell(last, bit);
        cells[2 * index + 1] = bit;
        last = bit;
    }
    cells
}

/// The cell at `place`, or 0 past the end of the stream (§3.2).
pub fn cell_at(cells: &[u8], place: usize) -> u8 {
    cells.get(place).copied().unwrap_or(0)
}

/// The byte whose first clock cell is at `place`: the eight data cells, the
/// first of them highest. Clock cells are not looked at (§3.6), and cells past
/// the end of the stream count as 0.
pub fn data_byte(cells: &[u8], place: usize) -> u8 {
    let mut byte = 0;
    for index in 0..8 {
        let data_place = place.saturating_add(2 * index + 1);
        byte = (byte << 1) | cell_at(cells, data_place);
    }
    byte
}

/// `count` bytes read one after another from `place` on, as [`data_byte`].
pub fn data_bytes(cells: &[u8], place: usize, count: usize) -> Vec<u8> {
    (0..count)
        .map(|index| data_byte(cells, place.saturating_add(CELLS_PER_BYTE * index)))
        .collect()
}

/// Whether a sync byte stands at `place`, wholly before the stream's end (§3.7).
///
/// This is the one test that looks at clock cells.
pub fn is_sync(cells: &[u8], place: usize) -> bool {
    match cells.get(place..) {
        Some(rest) => rest.starts_with(&word_cells(SYNC_CELLS)),
        None => false,
    }
}

/// Whether a run, three sync bytes one after another, begins at `place` (§3.7).
pub fn is_three_sync(cells: &[u8], place: usize) -> bool {
    is_sync(cells, place)
        && is_sync(cells, place + CELLS_PER_BYTE)
        && is_sync(cells, place + 2 * CELLS_PER_BYTE)
}
