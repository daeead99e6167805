//! Random bytes, names and damage, as data from which they are made.

use dhegluubin::{FIRST_TRACK_LEN, HFE_LEN, IMAGE_LEN};
use proptest::collection::vec;
use proptest::prelude::*;
use proptest::sample::select;
use std::fmt;
use support::noise::noise;

/// What bytes hold.
#[derive(Clone, Copy, Debug)]
pub enum Fill {
    /// The same byte everywhere.
    Equal(u8),
    /// Noise from this seed.
    Noise(u32),
}

/// So many bytes.
#[derive(Clone, Copy, Debug)]
pub struct Bytes {
    fill: Fill,
    len: usize,
}

impl Bytes {
    pub fn made(&self) -> Vec<u8> {
        match self.fill {
            Fill::Equal(byte) => vec![byte; self.len],
            Fill::Noise(seed) => noise(seed, self.len),
        }
    }
}

/// Seeds of noise.
pub fn seed() -> impl Strategy<Value = u32> {
    0..1_u32 << 24
}

/// Bytes of one of these lengths.
pub fn bytes(len: impl Strategy<Value = usize>) -> impl Strategy<Value = Bytes> {
    let fill = prop_oneof![
        1 => any::<u8>().prop_map(Fill::Equal),
        2 => seed().prop_map(Fill::Noise),
    ];
    (fill, len).prop_map(|(fill, len)| Bytes { fill, len })
}

/// A length at or about an interesting one, or any below 2^21.
pub fn len() -> impl Strategy<Value = usize> {
    let about = prop_oneof![
        7 => select(vec![0, 64, 512, 1024, FIRST_TRACK_LEN, IMAGE_LEN, HFE_LEN]),
        1 => 0..4000_usize,
        1 => 0..1_usize << 21,
    ];
    (about, 0..3_usize).prop_map(|(len, more)| (len + more).saturating_sub(1))
}

/// A name, which a failure shows as text.
#[derive(Clone)]
pub struct Name(pub Vec<u8>);

impl fmt::Debug for Name {
    fn fmt(&self, to: &mut fmt::Formatter) -> fmt::Result {
        write!(to, "\"{}\"", self.0.escape_ascii())
    }
}

/// A name, most often of one of the files that may be there, in either
/// spelling (§6.14), or of bytes next to the letters.
pub fn name() -> impl Strategy<Value = Name> {
    prop_oneof![
        7 => select(&b"abczABCZ@`[{"[..]).prop_map(|letter| vec![letter]),
        1 => Just(Vec::new()),
        1 => (36..38_usize).prop_map(|len| vec![b'n'; len]),
        1 => bytes(0..60_usize).prop_map(|bytes| bytes.made()),
    ]
    .prop_map(Name)
}

/// Damage of bytes; a place past the last one is counted on from the first.
#[derive(Clone, Copy, Debug)]
pub enum Damage {
    Flipped { place: usize, bit: u8 },
    Set { place: usize, byte: u8 },
    Cut { place: usize },
    Appended { byte: u8 },
}

/// No damage, or up to three of it.
pub fn damage() -> impl Strategy<Value = Vec<Damage>> {
    let place = || {
        // The first bytes hold header, map and table.
        prop_oneof![0..96_usize, 0..1024_usize, 0..6000_usize, 0..1_usize << 21]
    };
    let one = prop_oneof![
        19 => (place(), 0..8_u8).prop_map(|(place, bit)| Damage::Flipped { place, bit }),
        19 => (place(), any::<u8>()).prop_map(|(place, byte)| Damage::Set { place, byte }),
        1 => place().prop_map(|place| Damage::Cut { place }),
        1 => any::<u8>().prop_map(|byte| Damage::Appended { byte }),
    ];
    vec(one, 0..4)
}

/// Does this damage, in order.
pub fn spoil(bytes: &mut Vec<u8>, damage: &[Damage]) {
    for one in damage {
        let len = bytes.len();
        if len == 0 {
            return;
        }
        match *one {
            Damage::Flipped { place, bit } => bytes[place % len] ^= 1 << bit,
            Damage::Set { place, byte } => bytes[place % len] = byte,
            Damage::Cut { place } => bytes.truncate(place % len),
            Damage::Appended { byte } => bytes.push(byte),
        }
    }
}
