//! MFM bytes and sync bytes (§3.3, §3.4, §3.5, §3.6, §3.7).

use reference::cells::{buffer_cells, pack_cells};
use reference::mfm::{
    cell_at, data_byte, data_bytes, encode_byte, is_sync, is_three_sync, word_cells, CELLS_PER_BYTE,
};
use reference::written::Item;

/// Sixteen cells as a number, first cell highest.
fn word(cells: [u8; 16]) -> u16 {
    cells
        .iter()
        .fold(0, |word, &cell| (word << 1) | u16::from(cell))
}

/// Clock cells and data cells in turn (§3.3).
#[test]
fn gap_byte_after_a_zero() {
    assert_eq!(word(encode_byte(0x4E, 0)), 0x9254);
    assert_eq!(pack_cells(&encode_byte(0x4E, 0)), [0x49, 0x2A]);
}

/// A clock cell depends on its bit and the one before (§3.4).
#[test]
fn last_bit_decides_only_the_first_clock() {
    assert_eq!(word(encode_byte(0x4E, 1)), 0x1254);
    assert_eq!(word(encode_byte(0x00, 0)), 0xAAAA);
    assert_eq!(word(encode_byte(0x00, 1)), 0x2AAA);
    assert_eq!(word(encode_byte(0xFF, 0)), 0x5555);
    assert_eq!(word(encode_byte(0xFF, 1)), 0x5555);
}

/// The cells of both marks, and as they are stored (§3.5).
#[test]
fn marks_have_their_cells_and_storage() {
    for last_bit in [0, 1] {
        assert_eq!(word(Item::Sync.cells(last_bit)), 0x4489);
        assert_eq!(word(Item::Index.cells(last_bit)), 0x5224);
    }
    assert_eq!(pack_cells(&Item::Sync.cells(0)), [0x22, 0x91]);
    assert_eq!(pack_cells(&Item::Index.cells(0)), [0x4A, 0x24]);
}

#[test]
fn each_mark_leaves_out_one_clock_and_keeps_its_data() {
    for (mark, data) in [(0x4489, 0xA1), (0x5224, 0xC2)] {
        let ordinary = word(encode_byte(data, 0));
        let left_out = ordinary & !mark;
        assert_eq!(left_out.count_ones(), 1);
        assert_eq!(left_out & 0x5555, 0, "a data cell is not touched");
        assert_eq!(mark & !ordinary, 0, "no cell is added");
        assert_eq!(data_byte(&word_cells(mark), 0), data);
    }
}

#[test]
fn every_byte_reads_back_at_either_parity() {
    for byte in 0..=255 {
        for last_bit in [0, 1] {
            for shift in [0, 1, 2, 7] {
                let mut cells = vec![1; shift];
                cells.extend(encode_byte(byte, last_bit));
                assert_eq!(data_byte(&cells, shift), byte);
            }
        }
    }
}

/// A byte is read from its data cells alone (§3.6).
#[test]
fn reading_takes_no_notice_of_clocks() {
    assert_eq!(data_byte(&word_cells(0xAAAA), 0), 0x00);
    assert_eq!(data_byte(&word_cells(0xFFFF), 0), 0xFF);
    assert_eq!(data_byte(&word_cells(0x0001), 0), 0x01);
    assert_eq!(data_byte(&word_cells(0x4000), 0), 0x80);
}

/// A cell past the end reads as 0 (§3.2).
#[test]
fn cells_past_the_end_read_as_zero() {
    let cells = [1; 16];
    assert_eq!(cell_at(&cells, 15), 1);
    assert_eq!(cell_at(&cells, 16), 0);
    assert_eq!(data_byte(&cells, 1), 0xFE);
    assert_eq!(data_byte(&cells, 8), 0xF0);
    assert_eq!(data_byte(&cells, 16), 0);
    assert_eq!(data_byte(&cells, usize::MAX), 0);
    assert_eq!(data_bytes(&cells, 0, 3), [0xFF, 0, 0]);
}

/// A sync byte is all 16 cells (§3.7).
#[test]
fn sync_is_all_sixteen_cells() {
    let sync = word_cells(0x4489);
    assert!(is_sync(&sync, 0));
    for wrong in 0..CELLS_PER_BYTE {
        let mut cells = sync;
        cells[wrong] ^= 1;
        assert!(!is_sync(&cells, 0), "cell {wrong} matters");
    }
    assert!(!is_sync(&encode_byte(0xA1, 0), 0), "clock not left out");
    assert!(!is_sync(&word_cells(0x5224), 0));
}

#[test]
fn sync_is_found_at_either_parity_and_ends_before_the_end() {
    for shift in 0..20 {
        let mut cells = vec![0; shift];
        cells.extend(word_cells(0x4489));
        assert!(is_sync(&cells, shift));
        cells.pop();
        assert!(!is_sync(&cells, shift));
    }
    assert!(!is_sync(&[], 0));
    assert!(!is_sync(&[1, 0], usize::MAX));
}

/// A run is three sync bytes (§3.7).
#[test]
fn three_sync_need_all_three() {
    let three = buffer_cells(&[0x22, 0x91, 0x22, 0x91, 0x22, 0x91]);
    for shift in [0, 1, 5] {
        let cells = [vec![1; shift], three.clone()].concat();
        assert!(is_three_sync(&cells, shift));
        assert!(!is_three_sync(&cells, shift + 16), "only two are left");
        assert!(!is_three_sync(&cells[..cells.len() - 1], shift));
    }
    for wrong in 0..three.len() {
        let mut cells = three.clone();
        cells[wrong] ^= 1;
        assert!(!is_three_sync(&cells, 0), "cell {wrong} matters");
    }
}
