//! The sides of an HFE image, and an image of them with every track at units of
//! its own.

/// Bytes of a unit (§2.1).
const UNIT: usize = 512;

/// Bytes of each side in a unit (§2.6).
const HALF: usize = UNIT / 2;

/// Tracks that the table is used for (§2.4).
const TRACKS: usize = 80;

/// Unit of the table in an image that is made here, as in a packed one (§5.4).
const TABLE_UNIT: usize = 1;

/// Most bytes of a side: those of a track have an even number below 65,536.
pub const LONGEST_SIDE: usize = 32_767;

/// A byte that may stand before a side and changes nothing of it: its last
/// four cells are 1, and a run begins with a 0 cell and has no two 1 cells side
/// by side, so that none begins in this byte (§3.5, §3.7). It is no code (§2.7).
pub const FILLER: u8 = 0xF0;

/// The bytes of a track's two sides.
pub type Track = [Vec<u8>; 2];

/// The tracks of an image whose header and table are good; none where they are
/// not.
pub fn of(hfe: &[u8]) -> Option<Vec<Track>> {
    let table = UNIT.checked_mul(word(hfe, 18)?)?;
    (0..TRACKS)
        .map(|track| {
            let entry = table.checked_add(4 * track)?;
            let start = UNIT.checked_mul(word(hfe, entry)?)?;
            let length = word(hfe, entry.checked_add(2)?)? / 2;
            Some([side(hfe, start, 0, length)?, side(hfe, start, 1, length)?])
        })
        .collect()
}

/// A number of two bytes, low byte first (§2.1).
fn word(hfe: &[u8], at: usize) -> Option<usize> {
    let bytes = hfe.get(at..)?.first_chunk()?;
    Some(usize::from(u16::from_le_bytes(*bytes)))
}

/// The bytes of a side of the track that starts at this byte (§2.6).
fn side(hfe: &[u8], start: usize, side: usize, length: usize) -> Option<Vec<u8>> {
    let units = hfe.get(start..)?.chunks(UNIT);
    let halves = units.filter_map(|unit| unit.get(HALF * side..));
    let bytes = halves.flat_map(|half| half.iter().take(HALF));
    let found: Vec<u8> = bytes.take(length).copied().collect();
    (found.len() == length).then_some(found)
}

/// An image of these tracks. Where one side of a track is shorter than the other
/// it is filled up before its first byte: at its end, a field that the end cuts
/// off would be completed (§4.5).
pub fn image(header: &[u8], tracks: &[Track]) -> Vec<u8> {
    let mut image = header.to_vec();
    let mut table = Vec::new();
    image.resize(2 * UNIT, 0xFF);
    for [first, second] in tracks {
        let length = first.len().max(second.len());
        table.extend(entry(image.len() / UNIT, length));
        append(&mut image, &filled(first, length), &filled(second, length));
    }
    write_table(&mut image, &table);
    image
}

/// An image that has one side alone. All other tracks have one byte a side, the
/// first of this track: no header fits there, so that they cost no time.
pub fn lone(header: &[u8], track: usize, side: usize, bytes: &[u8]) -> Vec<u8> {
    let mut image = header.to_vec();
    image.resize(2 * UNIT, 0xFF);
    let table: Vec<u8> = (0..TRACKS)
        .flat_map(|number| entry(2, if number == track { bytes.len() } else { 1 }))
        .collect();
    let other = vec![FILLER; bytes.len()];
    match side {
        0 => append(&mut image, bytes, &other),
        _ => append(&mut image, &other, bytes),
    }
    write_table(&mut image, &table);
    image
}

/// The side that `lone` put into an image.
pub fn of_lone(image: &[u8], number: usize, length: usize) -> Option<Vec<u8>> {
    side(image, 2 * UNIT, number, length)
}

/// An entry of the table: unit and length of both sides (§2.4). Both are below
/// 65,536, as 80 tracks of the longest sides have 10,240 units.
fn entry(unit: usize, side_length: usize) -> [u8; 4] {
    let unit = u16::try_from(unit).unwrap_or(u16::MAX).to_le_bytes();
    let length = u16::try_from(2 * side_length).unwrap_or(u16::MAX);
    let [low, high] = length.to_le_bytes();
    let [unit_low, unit_high] = unit;
    [unit_low, unit_high, low, high]
}

fn write_table(image: &mut [u8], table: &[u8]) {
    let places = image.iter_mut().skip(TABLE_UNIT * UNIT);
    for (place, byte) in places.zip(table) {
        *place = *byte;
    }
}

/// The side, filled up to this length before its first byte.
fn filled(side: &[u8], length: usize) -> Vec<u8> {
    let mut bytes = vec![FILLER; length.saturating_sub(side.len())];
    bytes.extend_from_slice(side);
    bytes
}

/// Appends a track of two sides of one length at the next unit (§2.6).
fn append(image: &mut Vec<u8>, first: &[u8], second: &[u8]) {
    for (first, second) in first.chunks(HALF).zip(second.chunks(HALF)) {
        append_half(image, first);
        append_half(image, second);
    }
}

/// Appends a side's bytes of one unit; what it does not need is unused.
fn append_half(image: &mut Vec<u8>, bytes: &[u8]) {
    let end = image.len() + HALF;
    image.extend_from_slice(bytes);
    image.resize(end, 0xFF);
}
