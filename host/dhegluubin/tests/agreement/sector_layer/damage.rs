//! Random damage of written images: bits, bytes, runs and slips. Damage on which
//! library and reference do not agree is shown with few parts.

use super::both::unpack;
use super::build::{packed, sides, track_0, units};
use proptest::collection::vec;
use proptest::prelude::*;
use proptest::sample::select;
use reference::cells::{buffer_cells, pack_cells};
use support::cases::cases;
use support::noise::noise;
use support::property::assert_holds;

/// Seeds of noise.
fn seed() -> impl Strategy<Value = u32> {
    0..1_u32 << 24
}

/// What is done to bytes from a place on.
#[derive(Clone, Copy, Debug)]
enum Kind {
    /// A bit of one byte is another.
    Flip(u8),
    /// One byte is this.
    Set(u8),
    /// So many bytes are this.
    Fill(usize, u8),
    /// So many are reversed.
    Reverse(usize),
    /// So many are noise from a seed.
    Noise(usize, u32),
}

/// Damage of bytes; a place past the last one is counted on from the first.
#[derive(Clone, Copy, Debug)]
struct Damage {
    place: usize,
    kind: Kind,
}

fn place() -> impl Strategy<Value = usize> {
    0..1_usize << 24
}

fn damage() -> impl Strategy<Value = Damage> {
    let run = || 1..201_usize;
    let kind = prop_oneof![
        2 => (0..8_u8).prop_map(Kind::Flip),
        1 => any::<u8>().prop_map(Kind::Set),
        1 => (run(), select(vec![0x00, 0xFF, 0x22])).prop_map(|(len, byte)| Kind::Fill(len, byte)),
        1 => run().prop_map(Kind::Reverse),
        1 => (run(), seed()).prop_map(|(len, seed)| Kind::Noise(len, seed)),
    ];
    (place(), kind).prop_map(|(place, kind)| Damage { place, kind })
}

impl Damage {
    fn lay(self, bytes: &mut [u8]) {
        let place = self.place % bytes.len();
        let bytes = &mut bytes[place..];
        let rest = bytes.len();
        match self.kind {
            Kind::Flip(bit) => bytes[0] ^= 1 << bit,
            Kind::Set(byte) => bytes[0] = byte,
            Kind::Fill(len, byte) => bytes[..len.min(rest)].fill(byte),
            Kind::Reverse(len) => bytes[..len.min(rest)].reverse(),
            Kind::Noise(len, seed) => {
                let len = len.min(rest);
                bytes[..len].copy_from_slice(&noise(seed, len));
            }
        }
    }
}

/// What is done to a side.
#[derive(Clone, Copy, Debug)]
enum SideDamage {
    Bytes(Damage),
    /// From a place on so many cells are lost.
    Lost(usize, usize),
    /// They come twice.
    Doubled(usize, usize),
}

fn side_damage() -> impl Strategy<Value = SideDamage> {
    let cells = || (place(), 1..21_usize);
    prop_oneof![
        6 => damage().prop_map(SideDamage::Bytes),
        1 => cells().prop_map(|(place, count)| SideDamage::Lost(place, count)),
        1 => cells().prop_map(|(place, count)| SideDamage::Doubled(place, count)),
    ]
}

impl SideDamage {
    fn lay(self, side: &mut Vec<u8>) {
        let (place, count) = match self {
            SideDamage::Bytes(damage) => return damage.lay(side),
            SideDamage::Lost(place, count) | SideDamage::Doubled(place, count) => (place, count),
        };
        let mut cells = buffer_cells(side);
        let place = place % (cells.len() - 40);
        if matches!(self, SideDamage::Lost(..)) {
            cells.drain(place..place + count);
            cells.extend(vec![0; count]);
        } else {
            let doubled = cells[place..place + count].to_vec();
            cells.splice(place..place, doubled);
            cells.truncate(8 * side.len());
        }
        *side = pack_cells(&cells);
    }
}

#[test]
fn first_track() {
    let written = sides(&packed(), 0);
    let damage = vec((0..2_usize, side_damage()), 1..3);
    assert_holds(81, cases(300), &damage, |damage| {
        let mut sides = written.clone();
        for (side, damage) in damage {
            damage.lay(&mut sides[*side]);
        }
        println!("{:?}", unpack(&track_0(&sides)));
    });
}

#[test]
fn bits_about_the_marks_of_a_sector() {
    // From the sync bytes before the first header to the first data bytes.
    let written = sides(&packed(), 0);
    let bits = vec((0..110_usize, 0..8_u8), 1..3);
    assert_holds(82, cases(200), &bits, |bits| {
        let mut sides = written.clone();
        for (byte, bit) in bits {
            sides[0][2 * (146 + 12) + byte] ^= 1 << bit;
        }
        println!("{:?}", unpack(&track_0(&sides)));
    });
}

#[test]
fn header_and_table() {
    let mut written = packed();
    // Most images are refused early, the rest at track 0.
    written[1024..3000].fill(0);
    assert_holds(83, cases(120), &vec(damage(), 1..4), |damage| {
        let mut hfe = written.clone();
        for one in damage {
            one.lay(&mut hfe[..1024]);
        }
        println!("{:?}", unpack(&hfe));
    });
}

#[test]
fn whole_disk() {
    let written = packed();
    assert_holds(84, cases(14), &vec(damage(), 1..5), |damage| {
        let mut hfe = written.clone();
        for one in damage {
            one.lay(&mut hfe);
        }
        println!("{:?}", unpack(&hfe));
    });
}

/// An image of noise, or a packed one whose first track is noise.
#[derive(Clone, Copy, Debug)]
enum Noisy {
    Image(u32, usize),
    Track([u32; 2]),
}

#[test]
fn random_bytes() {
    let written = packed();
    let noisy = prop_oneof![
        (seed(), 0..5000_usize).prop_map(|(seed, len)| Noisy::Image(seed, len)),
        [seed(), seed()].prop_map(Noisy::Track),
    ];
    assert_holds(85, cases(60), &noisy, |noisy| {
        let hfe = match *noisy {
            Noisy::Image(seed, len) => noise(seed, len),
            Noisy::Track(seeds) => {
                let mut hfe = written.clone();
                let track = units(&seeds.map(|seed| noise(seed, 4000)));
                hfe[1024..1024 + track.len()].copy_from_slice(&track);
                hfe
            }
        };
        println!("{:?}", unpack(&hfe));
    });
}
