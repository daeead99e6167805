//! HFE images of version 3: the cells that another image has, with codes among
//! the bytes of the sides.

use crate::noise::Generator;

/// The letters that such an image begins with.
pub const LETTERS: [u8; 8] = *b"HXCHFEV3";

/// Code F0 as it is stored, first cell lowest: nothing.
pub const NOTHING: u8 = 0x0F;

/// Code F1: index.
pub const INDEX: u8 = 0x8F;

/// Code F2: the next byte is a bit rate.
pub const RATE: u8 = 0x4F;

/// Code F3: after it stand a count and a byte whose first cells are dropped.
pub const SKIP: u8 = 0xCF;

/// Code F4, which is not accepted: a weak area.
pub const WEAK: u8 = 0x2F;

/// The counts 0 to 7 as they are stored.
pub const COUNTS: [u8; 8] = [0x00, 0x80, 0x40, 0xC0, 0x20, 0xA0, 0x60, 0xE0];

/// Bytes of a unit, half of them of each side.
const UNIT: usize = 512;

const TRACKS: usize = 80;

/// Most bytes of a side: a track's length is an even number below 65,536.
const LONGEST_SIDE: usize = 32_767;

/// What stands in the last unit after the bytes of a side: a wrong code, were
/// it looked at.
const UNUSED: u8 = 0xFF;

/// Whether a byte that belongs to no code before it is one.
pub fn looks_like_code(byte: u8) -> bool {
    byte & 0x0F == 0x0F
}

/// An image of version 3 whose sides have the same cells as those of tracks 0
/// to 79 of `hfe`, an image of version 1 with a good table. Before about one of
/// `every` bytes stands a code, and the shorter side of a track is filled up
/// with codes.
pub fn with_codes(hfe: &[u8], every: usize, generator: &mut Generator) -> Vec<u8> {
    let mut image = hfe[..UNIT].to_vec();
    image[..8].copy_from_slice(&LETTERS);
    image[18..20].copy_from_slice(&1u16.to_le_bytes());
    image.resize(2 * UNIT, UNUSED);
    for track in 0..TRACKS {
        let mut sides =
            [0, 1].map(|side| coded(&cells(&side_bytes(hfe, track, side)), every, generator));
        fill(&mut sides, generator);
        append(&mut image, track, &sides);
    }
    image
}

/// Bytes that give these cells in version 3. Before about one of `every` bytes
/// stands a code, most often one, by chance several.
pub fn coded(cells: &[u8], every: usize, generator: &mut Generator) -> Vec<u8> {
    let mut bytes = Vec::new();
    let mut rest = cells;
    while !rest.is_empty() {
        let has_code = generator.below(every) == 0;
        if has_code && generator.below(4) > 0 {
            bytes.extend(empty_code(generator.below(EMPTY_KINDS), generator));
            continue;
        }
        let most = if has_code { 1 + generator.below(8) } else { 8 };
        let (now, later) = rest.split_at(most.min(rest.len()));
        let byte = packed(now);
        match has_code || now.len() < 8 || looks_like_code(byte) {
            true => bytes.extend(part(now, dropped(generator))),
            false => bytes.push(byte),
        }
        rest = later;
    }
    bytes
}

/// Kinds of code that give no cells.
const EMPTY_KINDS: usize = 3;

/// A code that gives no cells: 0 nothing, 1 index, 2 a bit rate, of any value.
fn empty_code(kind: usize, generator: &mut Generator) -> Vec<u8> {
    match kind {
        0 => vec![NOTHING],
        1 => vec![INDEX],
        _ => vec![RATE, generator.byte()],
    }
}

/// What dropped cells are: all 1, so that their byte may look like a code, or
/// by chance.
fn dropped(generator: &mut Generator) -> u8 {
    match generator.below(2) {
        0 => 0xFF,
        _ => generator.byte(),
    }
}

/// A code with count and byte that gives these cells, 1 to 8: the last of the
/// byte. Its first ones, which are dropped, are those of `dropped`.
pub fn part(cells: &[u8], dropped: u8) -> [u8; 3] {
    let count = 8 - cells.len();
    let kept = packed(cells) << count;
    let lost = dropped & !(0xFF << count);
    [SKIP, COUNTS[count], kept | lost]
}

/// The cells, at most eight, in a byte from its lowest bit on.
fn packed(cells: &[u8]) -> u8 {
    let bits = cells.iter().enumerate();
    bits.fold(0, |byte, (bit, cell)| byte | cell << bit)
}

/// The cells of bytes, each 0 or 1: of each byte the lowest bit comes first.
pub fn cells(bytes: &[u8]) -> Vec<u8> {
    let of_byte = |byte: &u8| {
        let byte = *byte;
        (0..8).map(move |bit| byte >> bit & 1)
    };
    bytes.iter().flat_map(of_byte).collect()
}

/// Fills the shorter side up to the length of the other with codes that give no
/// cells.
pub fn fill(sides: &mut [Vec<u8>; 2], generator: &mut Generator) {
    let len = sides[0].len().max(sides[1].len());
    for side in sides {
        while side.len() < len {
            // A bit rate needs two bytes.
            let kinds = EMPTY_KINDS.min(1 + len - side.len());
            side.extend(empty_code(generator.below(kinds), generator));
        }
    }
}

/// The bytes of a side by the table of an image.
fn side_bytes(hfe: &[u8], track: usize, side: usize) -> Vec<u8> {
    let word = |at: usize| usize::from(u16::from_le_bytes([hfe[at], hfe[at + 1]]));
    let entry = UNIT * word(18) + 4 * track;
    let start = UNIT * word(entry);
    let len = word(entry + 2) / 2;
    (0..len)
        .map(|index| hfe[start + place(side, index)])
        .collect()
}

/// Where byte `index` of a side stands in a track's units.
fn place(side: usize, index: usize) -> usize {
    let half = UNIT / 2;
    UNIT * (index / half) + half * side + index % half
}

/// Appends a track of two sides of the same length, and puts its entry in the
/// table at unit 1.
fn append(image: &mut Vec<u8>, track: usize, sides: &[Vec<u8>; 2]) {
    let start = image.len();
    let len = sides[0].len();
    assert!(len <= LONGEST_SIDE, "a side of {len} bytes");
    image.resize(start + UNIT * len.div_ceil(UNIT / 2), UNUSED);
    for (side, bytes) in sides.iter().enumerate() {
        for (index, byte) in bytes.iter().enumerate() {
            image[start + place(side, index)] = *byte;
        }
    }
    let entry = UNIT + 4 * track;
    image[entry..entry + 2].copy_from_slice(&((start / UNIT) as u16).to_le_bytes());
    image[entry + 2..entry + 4].copy_from_slice(&((2 * len) as u16).to_le_bytes());
}

#[cfg(test)]
mod tests {
    use super::*;
    use crate::noise::noise;

    /// The last cells of the byte are those that are given.
    #[test]
    fn parts_of_a_byte() {
        assert_eq!(part(&[1, 0, 1, 1, 0, 0, 0, 1], 0xFF), [SKIP, 0x00, 0x8D]);
        assert_eq!(part(&[1, 0, 1], 0x00), [SKIP, 0xA0, 0b1010_0000]);
        assert_eq!(part(&[1, 0, 1], 0xFF), [SKIP, 0xA0, 0b1011_1111]);
        assert_eq!(part(&[0], 0x05), [SKIP, 0xE0, 0x05]);
    }

    #[test]
    fn lowest_bit_is_the_first_cell() {
        assert_eq!(
            cells(&[0x01, 0xC0]),
            [1, 0, 0, 0, 0, 0, 0, 0, 0, 0, 0, 0, 0, 0, 1, 1]
        );
    }

    /// Bytes that look like codes stand behind a count, and so do cells that
    /// fill no byte; all others stay.
    #[test]
    fn few_codes() {
        let rarely = 1 << 24;
        let mut generator = Generator::new(1);
        let bytes = [0x12, 0x2F, 0xF2];
        let expected = [0x12, SKIP, 0x00, 0x2F, 0xF2];
        assert_eq!(coded(&cells(&bytes), rarely, &mut generator), expected);
        let three = coded(&[0, 1, 1], rarely, &mut generator);
        assert_eq!(three.len(), 3);
        assert_eq!((three[0], three[1], three[2] >> 5), (SKIP, 0xA0, 0b110));
    }

    /// Each code comes, and each count.
    #[test]
    fn many_codes() {
        let bytes = coded(&cells(&noise(1, 4000)), 3, &mut Generator::new(2));
        let has = |pair: [u8; 2]| bytes.windows(2).any(|two| two == pair);
        for code in [NOTHING, INDEX, RATE, SKIP] {
            assert!(bytes.contains(&code));
        }
        assert!(COUNTS.into_iter().all(|count| has([SKIP, count])));
    }

    #[test]
    fn both_sides_have_one_length() {
        let mut generator = Generator::new(3);
        for missing in 0..50 {
            let mut sides = [vec![0x12; 50 - missing], vec![0x34; 50]];
            fill(&mut sides, &mut generator);
            assert_eq!((sides[0].len(), &sides[1]), (50, &vec![0x34; 50]));
            assert!(sides[0][..50 - missing].iter().all(|&byte| byte == 0x12));
        }
    }
}
