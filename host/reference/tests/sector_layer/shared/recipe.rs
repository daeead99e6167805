//! HFE images as the outside answers to change requests describe them.

use super::answer::pack_into;
use super::build::track_0;
use reference::cells::{buffer_cells, pack_cells, place_in_part, side_bytes};
use reference::geometry::IMAGE_LEN;
use reference::pack::HFE_LEN;
use reference::track_table::{good_entry, Track};
use std::sync::OnceLock;
use support::hex::{from_hex, to_hex};
use support::json::{parse, Contents, Value};
use support::noise::noise;

/// What is done for an image, in this order.
pub struct Recipe<'a> {
    /// What it begins as: a packed disk of noise, or pieces.
    pub start: &'a Value,
    /// Sides that begin at a later cell.
    pub turns: &'a Value,
    /// Bytes of sides that others take the place of.
    pub splices: &'a Value,
    /// Bytes that are laid over the image.
    pub patches: &'a Value,
    /// The image's length at last.
    pub length: &'a Value,
}

impl Recipe<'_> {
    /// The image. Sides are where the table says that the image begins with.
    pub fn image(&self) -> Vec<u8> {
        let start = start(self.start);
        let mut hfe = start.clone();
        for turn in self.turns.list() {
            let [track, side, cells] = numbers(turn.list());
            let side = Side::of(&start, track, side);
            let turned = turned(&side.bytes(&hfe), cells);
            side.set(&mut hfe, &turned);
        }
        for splice in self.splices.list() {
            let (hex, places) = splice.list().split_last().expect("a splice");
            let [track, side, at, removed] = numbers(places);
            let side = Side::of(&start, track, side);
            let spliced = spliced(&side.bytes(&hfe), at, removed, &from_hex(hex.text()));
            side.set(&mut hfe, &spliced);
        }
        for patch in self.patches.list() {
            let [at, hex] = patch.list() else {
                panic!("patch {patch:?}");
            };
            let (at, bytes) = (at.size(), from_hex(hex.text()));
            hfe[at..at + bytes.len()].copy_from_slice(&bytes);
        }
        hfe.resize(self.length.size(), 0);
        hfe
    }
}

/// So many numbers.
fn numbers<const N: usize>(list: &[Value]) -> [usize; N] {
    let numbers: Vec<usize> = list.iter().map(Value::size).collect();
    numbers
        .try_into()
        .expect("as many numbers as are asked for")
}

/// The image that a recipe starts from.
fn start(start: &Value) -> Vec<u8> {
    if start.has("packed") {
        let [seed] = start.members(["packed"]);
        packed(seed.number())
    } else {
        let [list] = start.members(["pieces"]);
        pieces(list)
    }
}

/// The packed disk of noise. All recipes have the same seed, so that it is
/// packed once.
fn packed(seed: u64) -> Vec<u8> {
    static PACKED: OnceLock<(u64, Vec<u8>)> = OnceLock::new();
    let (own, hfe) = PACKED.get_or_init(|| {
        let image = noise(u32::try_from(seed).expect("a seed"), IMAGE_LEN);
        let (reply, hfe) = pack_into(&image, &vec![0x55; HFE_LEN]);
        assert_eq!(reply, [0; 4]);
        (seed, hfe)
    });
    assert_eq!(*own, seed, "another disk than the one that is packed");
    hfe.clone()
}

/// Bytes in pieces: each piece so many times, one after another.
pub fn pieces(list: &Value) -> Vec<u8> {
    let piece = |piece: &Value| match piece.list() {
        [hex, times] => from_hex(hex.text()).repeat(times.size()),
        _ => panic!("piece {piece:?}"),
    };
    list.list().iter().flat_map(piece).collect()
}

/// Where a side stands in an image.
struct Side {
    track: Track,
    side: usize,
}

impl Side {
    /// The side by the table of an image.
    fn of(hfe: &[u8], track: usize, side: usize) -> Side {
        let track = good_entry(hfe, track).expect("a good entry");
        Side { track, side }
    }

    fn bytes(&self, hfe: &[u8]) -> Vec<u8> {
        side_bytes(&hfe[self.track.start..], self.track.len, self.side)
    }

    fn set(&self, hfe: &mut [u8], bytes: &[u8]) {
        for (index, byte) in bytes.iter().enumerate() {
            hfe[self.track.start + place_in_part(self.side, index)] = *byte;
        }
    }
}

/// The bytes whose first cell is so many cells later; those before it come
/// last.
fn turned(bytes: &[u8], count: usize) -> Vec<u8> {
    let mut cells = buffer_cells(bytes);
    cells.rotate_left(count);
    pack_cells(&cells)
}

/// The bytes with others in place of some. The length stays: what is too long
/// falls off at the end, and nothing says what would make up for less.
fn spliced(bytes: &[u8], at: usize, removed: usize, others: &[u8]) -> Vec<u8> {
    assert!(others.len() >= removed, "the side would be shorter");
    let mut spliced = [&bytes[..at], others, &bytes[at + removed..]].concat();
    spliced.truncate(bytes.len());
    spliced
}

/// Each step: a side turned by seven cells, a byte of the other taken by two,
/// patches of which the later one stays, and two bytes more.
#[test]
fn steps_of_a_recipe() {
    let old = track_0(&[vec![1, 2, 3, 4], vec![0x80, 0, 0, 0x40]]);
    let start = format!(r#"{{"pieces": [["{}", 1]]}}"#, to_hex(&old));
    let members = [
        &start,
        "[[0, 1, 7]]",
        r#"[[0, 0, 1, 1, "aabb"]]"#,
        r#"[[1024, "0708"], [1026, "cc"], [1024, "09"]]"#,
        "1538",
    ];
    let [start, turns, splices, patches, length] = &members.map(parse);
    let recipe = Recipe {
        start,
        turns,
        splices,
        patches,
        length,
    };
    let mut expected = track_0(&[vec![9, 8, 0xCC, 3], vec![1, 0, 0x80, 0]]);
    expected.extend([0; 2]);
    assert!(recipe.image() == expected);
}

/// Each piece so many times.
#[test]
fn bytes_in_pieces() {
    let list = parse(r#"[["0102", 2], ["ff", 0], ["03", 1]]"#);
    assert_eq!(pieces(&list), [1, 2, 1, 2, 3]);
}
