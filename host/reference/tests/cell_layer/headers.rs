//! The search for headers (§4.1, §4.2, §4.3).

use crate::build::{field, gap, header, header_items, id, join, marked, noise_sector};
use reference::crc::crc_of_field;
use reference::header::{find_header, header_at, Header, Search, SectorId, HEADER_CELLS};
use reference::sector::read_sector;
use reference::written::{item_cells, Item};

#[test]
fn empty_or_plain_stream_has_no_header() {
    assert_eq!(find_header(&[], id(0, 0, 1)), Search::Nothing);
    assert_eq!(find_header(&gap(100), id(0, 0, 1)), Search::Nothing);
    assert_eq!(read_sector(&gap(100), id(0, 0, 1)), Err(4));
}

#[test]
fn one_header_at_any_cell_place() {
    let sector = id(17, 1, 5);
    for shift in 0..35 {
        let cells = join(&[&vec![0; shift], &header(sector), &gap(2)]);
        assert_eq!(find_header(&cells, sector), Search::One(shift));
        let found = Header {
            c: 17,
            h: 1,
            r: 5,
            n: 2,
        };
        assert_eq!(header_at(&cells, shift), Some(found));
    }
}

#[test]
fn two_headers_are_several_at_any_parity() {
    let sector = id(3, 0, 9);
    for shift in [0, 1, 16, 33] {
        let cells = join(&[&header(sector), &vec![0; shift], &header(sector)]);
        assert_eq!(find_header(&cells, sector), Search::Several);
        assert_eq!(read_sector(&cells, sector), Err(5));
        assert_eq!(find_header(&cells, id(3, 0, 8)), Search::Nothing);
    }
    let three = header(sector).repeat(3);
    assert_eq!(find_header(&three, sector), Search::Several);
}

#[test]
fn five_goes_before_the_judging_of_data_fields() {
    let sector = id(3, 0, 9);
    let data = noise_sector(3);
    let cells = join(&[&header(sector), &gap(1), &header(sector), &field(&data)]);
    assert_eq!(read_sector(&cells, sector), Err(5));
}

/// A header names track, side, sector and size (§4.1 §4.2).
#[test]
fn every_byte_of_the_header_counts() {
    let right = [40, 1, 6, 2];
    for wrong in [[41, 1, 6, 2], [40, 0, 6, 2], [40, 1, 7, 2], [40, 1, 6, 3]] {
        let cells = item_cells(&header_items(wrong));
        assert!(header_at(&cells, 0).is_some(), "a header all the same");
        assert_eq!(find_header(&cells, id(40, 1, 6)), Search::Nothing);
        let both = join(&[&cells, &item_cells(&header_items(right))]);
        assert_eq!(find_header(&both, id(40, 1, 6)), Search::One(HEADER_CELLS));
    }
}

/// N is 2 (§4.2).
#[test]
fn size_code_is_two() {
    for n in [0, 1, 3, 0x82, 255] {
        let cells = item_cells(&header_items([0, 0, 1, n]));
        assert_eq!(find_header(&cells, id(0, 0, 1)), Search::Nothing);
    }
}

/// R is 1 to 9 (§4.2).
#[test]
fn sector_number_is_one_to_nine() {
    for r in 0..=255 {
        let expected = match r {
            1..=9 => Search::One(0),
            _ => Search::Nothing,
        };
        assert_eq!(find_header(&header(id(0, 0, r)), id(0, 0, r)), expected);
    }
}

/// The CRC of a header holds (§4.1).
#[test]
fn wrong_crc_belongs_to_no_sector() {
    let sector = id(0, 0, 1);
    for bit in 0..16 {
        let bad = item_cells(&marked(3, 0xFE, &[0, 0, 1, 2], 1 << bit));
        assert_eq!(find_header(&bad, sector), Search::Nothing);
        assert_eq!(read_sector(&bad, sector), Err(4));
        let cells = join(&[&bad, &header(sector), &bad]);
        assert_eq!(find_header(&cells, sector), Search::One(HEADER_CELLS));
    }
}

/// A CRC has its high byte first (§3.9).
#[test]
fn crc_has_its_high_byte_first() {
    let crc = crc_of_field(0xFE, &[0, 0, 1, 2]);
    let swapped = marked(3, 0xFE, &[0, 0, 1, 2], crc ^ crc.swap_bytes());
    assert_eq!(
        find_header(&item_cells(&swapped), id(0, 0, 1)),
        Search::Nothing
    );
    let mut by_hand = vec![Item::Sync; 3];
    by_hand.extend([0xFE, 0, 0, 1, 2, 0xCA, 0x6F].map(Item::Byte));
    assert_eq!(
        find_header(&item_cells(&by_hand), id(0, 0, 1)),
        Search::One(0)
    );
}

/// The mark of a header is FE (§4.1).
#[test]
fn other_marks_are_no_headers() {
    for mark in [0xFB, 0xFF, 0xFC, 0xF8, 0xA1] {
        let cells = item_cells(&marked(3, mark, &[0, 0, 1, 2], 0));
        assert_eq!(find_header(&cells, id(0, 0, 1)), Search::Nothing);
    }
}

#[test]
fn last_three_of_many_sync_bytes_count() {
    let body = [0, 0, 1, 2];
    for (syncs, expected) in [
        (2, Search::Nothing),
        (3, Search::One(0)),
        (4, Search::One(16)),
        (6, Search::One(48)),
    ] {
        let cells = item_cells(&marked(syncs, 0xFE, &body, 0));
        assert_eq!(find_header(&cells, id(0, 0, 1)), expected);
    }
}

#[test]
fn sync_bytes_written_without_the_missing_clock_do_not_count() {
    let mut items = header_items([0, 0, 1, 2]);
    for index in 0..3 {
        let mut changed = items.clone();
        changed[index] = Item::Byte(0xA1);
        assert_eq!(
            find_header(&item_cells(&changed), id(0, 0, 1)),
            Search::Nothing
        );
    }
    items[..3].fill(Item::Byte(0xA1));
    assert_eq!(
        find_header(&item_cells(&items), id(0, 0, 1)),
        Search::Nothing
    );
}

/// A sector whose header CRC ends with many 0 bits, so that cells missing at
/// the end would read as the right ones.
fn sector_with_crc_ending_in_zeros() -> SectorId {
    for track in 0..80 {
        for side in 0..2 {
            for r in 1..=9 {
                if crc_of_field(0xFE, &[track, side, r, 2]) & 0x1F == 0 {
                    return id(track, side, r);
                }
            }
        }
    }
    panic!("no such sector");
}

#[test]
fn header_cut_by_the_streams_end() {
    let zeros = sector_with_crc_ending_in_zeros();
    for sector in [id(0, 0, 1), zeros] {
        let cells = join(&[&gap(3), &[1], &header(sector)]);
        assert_eq!(find_header(&cells, sector), Search::One(49));
        assert_eq!(read_sector(&cells, sector), Err(6), "whole, but no field");
        for missing in 1..=HEADER_CELLS {
            let cut = &cells[..cells.len() - missing];
            assert_eq!(find_header(cut, sector), Search::Nothing);
            assert_eq!(read_sector(cut, sector), Err(4));
        }
    }
}

/// Nothing is completed from the side's beginning (§3.2).
#[test]
fn stream_does_not_go_round() {
    let sector = id(0, 0, 1);
    let whole = header(sector);
    let (first, second) = whole.split_at(70);
    let cells = join(&[second, &gap(20), first]);
    assert_eq!(find_header(&cells, sector), Search::Nothing);
}

#[test]
fn clocks_matter_only_in_sync_bytes() {
    let sector = id(77, 1, 3);
    for clock in [0, 1] {
        let mut cells = header(sector);
        for place in (48..cells.len()).step_by(2) {
            cells[place] = clock;
        }
        assert_eq!(find_header(&cells, sector), Search::One(0));
    }
}

/// Places inside data fields are tried too (§4.3).
#[test]
fn header_inside_a_data_field_counts() {
    let (outer, inner) = (id(5, 1, 1), id(5, 1, 2));
    let mut data = noise_sector(4);
    let hidden = header_items([5, 1, 2, 2]);
    for (index, item) in hidden.iter().enumerate() {
        data[100 + index] = item.data();
    }
    let mut items = marked(3, 0xFB, &data, 0);
    items[104..114].copy_from_slice(&hidden);
    let cells = join(&[&header(outer), &item_cells(&items)]);
    assert_eq!(read_sector(&cells, outer), Ok(data));
    let hidden_place = HEADER_CELLS + 104 * 16;
    assert_eq!(find_header(&cells, inner), Search::One(hidden_place));

    let with_second = join(&[&cells, &header(inner), &field(&data)]);
    assert_eq!(read_sector(&with_second, inner), Err(5));
    assert_eq!(read_sector(&with_second, outer), Ok(data));
}
