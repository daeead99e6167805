//! Sides made of sectors that are not all as `pack` writes them.

use reference::cells::pack_cells;
use reference::crc::crc_of_field;
use reference::written::{item_cells, Item};
use support::noise::{noise, Generator};

/// Bytes as items.
pub fn plain(bytes: &[u8]) -> Vec<Item> {
    bytes.iter().map(|&byte| Item::Byte(byte)).collect()
}

/// Sync bytes, mark, body, and a CRC that is wrong by the bits of `error`.
pub fn marked(syncs: usize, mark: u8, body: &[Item], error: u16) -> Vec<Item> {
    let data: Vec<u8> = body.iter().map(|item| item.data()).collect();
    let crc = crc_of_field(mark, &data) ^ error;
    [
        &vec![Item::Sync; syncs],
        &plain(&[mark]),
        body,
        &plain(&crc.to_be_bytes()),
    ]
    .concat()
}

/// A header with a CRC that holds.
pub fn header_items(chrn: [u8; 4]) -> Vec<Item> {
    marked(3, 0xFE, &plain(&chrn), 0)
}

/// So many cells of bytes 4E.
pub fn gap_cells(count: usize) -> Vec<u8> {
    let byte = item_cells(&plain(&[0x4E]));
    byte.iter().copied().cycle().take(count).collect()
}

/// A sector of a side: a good one, or one with something changed.
#[derive(Clone)]
pub struct Sector {
    /// Cells before the header.
    pub before: Vec<u8>,
    pub header_syncs: usize,
    pub header_mark: u8,
    /// C, H, R, N.
    pub header: [u8; 4],
    /// Bits by which the header's CRC is wrong.
    pub header_error: u16,
    /// Cells between the header's CRC and the field's sync bytes.
    pub gap: Vec<u8>,
    pub field_syncs: usize,
    pub field_mark: u8,
    pub data: Vec<Item>,
    /// Bits by which the CRC of the data is wrong.
    pub data_error: u16,
}

impl Sector {
    /// A good sector.
    pub fn good(track: u8, side: u8, r: u8, data: &[u8]) -> Sector {
        Sector {
            before: gap_cells(40 * 16),
            header_syncs: 3,
            header_mark: 0xFE,
            header: [track, side, r, 2],
            header_error: 0,
            gap: gap_cells(34 * 16),
            field_syncs: 3,
            field_mark: 0xFB,
            data: plain(data),
            data_error: 0,
        }
    }

    /// Header and field, each by its items; cells of its bytes follow from
    /// the item before, those of gaps from nothing.
    pub fn cells(&self) -> Vec<u8> {
        let header = marked(
            self.header_syncs,
            self.header_mark,
            &plain(&self.header),
            self.header_error,
        );
        let field = marked(
            self.field_syncs,
            self.field_mark,
            &self.data,
            self.data_error,
        );
        [
            &self.before[..],
            &item_cells(&header),
            &self.gap,
            &item_cells(&field),
        ]
        .concat()
    }
}

/// Nine good sectors of a side, in order of R, with data of a seed.
pub fn good_sectors(track: u8, side: u8, seed: u32) -> Vec<Sector> {
    (1..=9)
        .map(|r| {
            let data = noise(seed.wrapping_add(r.into()), 512);
            Sector::good(track, side, r, &data)
        })
        .collect()
}

/// The cells of sectors one after another, with a gap at the end.
pub fn side_cells(sectors: &[Sector]) -> Vec<u8> {
    let mut cells: Vec<u8> = sectors.iter().flat_map(Sector::cells).collect();
    cells.extend(gap_cells(60 * 16));
    cells
}

/// Their bytes.
pub fn side_bytes(sectors: &[Sector]) -> Vec<u8> {
    pack_cells(&side_cells(sectors))
}

/// Cells each 0 or 1 by chance.
pub fn random_cells(generator: &mut Generator, count: usize) -> Vec<u8> {
    (0..count).map(|_| generator.byte() >> 7).collect()
}

/// Changes something; not every change is a fault.
pub fn change(generator: &mut Generator, sector: &mut Sector) {
    let [track, side, ..] = sector.header;
    match generator.below(14) {
        0 => sector.header_syncs = 2 + generator.below(4),
        1 => sector.header_mark ^= 1 << generator.below(8),
        2 => sector.header[generator.below(4)] ^= 1 << generator.below(8),
        3 => sector.header_error = 1 << generator.below(16),
        4 => sector.gap = gap_cells(685 + generator.below(8)),
        5 => sector.field_syncs = 2 + generator.below(4),
        6 => sector.field_mark ^= 1 << generator.below(8),
        7 => sector.data_error = 1 << generator.below(16),
        8 => {
            sector.data.truncate(generator.below(512));
        }
        9 => {
            // A header within the data.
            let header = [track, side, 1 + generator.below(9) as u8, 2];
            let start = generator.below(502);
            sector.data.splice(start..start + 10, header_items(header));
        }
        10 => {
            // A second header before the sector.
            let header = [track, side, 1 + generator.below(11) as u8, 2];
            let slip = generator.below(40);
            let second = item_cells(&header_items(header));
            sector.before = [second, gap_cells(slip)].concat();
        }
        11 => {
            // Sync bytes in the gap.
            let syncs = vec![Item::Sync; 1 + generator.below(4)];
            let mark = plain(&[*generator.choice(&[0xFB, 0xF8, 0x4E])]);
            let slip = generator.below(300);
            sector.gap = [gap_cells(slip), item_cells(&syncs), item_cells(&mark)].concat();
        }
        12 => sector.gap.truncate(0),
        _ => {
            let data = generator.below(512);
            sector.data[data] = Item::Byte(generator.byte());
        }
    }
}
