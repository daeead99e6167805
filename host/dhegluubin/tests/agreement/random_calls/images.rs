//! Random block images and HFE images, as data from which they are made.

use super::bytes::{bytes, damage, len, seed, spoil, Bytes, Damage};
use crate::file_layer::{random_bad, random_tails, set_word};
use crate::sector_layer::build::{empty_tracks, packed, sides, track_0};
use crate::sector_layer::coded::random::random_bytes as bytes_and_codes;
use crate::sector_layer::coded::{coded_track_0, version_3_of_empty};
use crate::sector_layer::rewrites;
use proptest::collection::vec;
use proptest::prelude::*;
use proptest::sample::select;
use std::sync::OnceLock;
use support::codes::{cells, coded, fill};
use support::noise::Generator;

/// The block image of a call.
#[derive(Clone, Debug)]
pub enum Image {
    /// The disk that calls have left so far.
    Disk,
    /// The same with damage.
    Damaged(Vec<Damage>),
    /// With other tails in its free records, from this seed.
    Tails(u32),
    /// With more bad blocks (§6.9), from this seed.
    BadBlocks(u32),
    /// With another good word (§6.18).
    GoodWord(usize),
    /// No disk at all.
    Other(Bytes),
}

pub fn image() -> impl Strategy<Value = Image> {
    prop_oneof![
        4 => Just(Image::Disk),
        4 => damage().prop_map(Image::Damaged),
        1 => seed().prop_map(Image::Tails),
        1 => seed().prop_map(Image::BadBlocks),
        1 => (0..481_usize).prop_map(|blocks| Image::GoodWord(3 * blocks)),
        1 => bytes(len()).prop_map(Image::Other),
    ]
}

impl Image {
    /// The image, where calls have left this disk.
    pub fn made(&self, disk: &[u8]) -> Vec<u8> {
        let mut image = disk.to_vec();
        match self {
            Image::Disk => (),
            Image::Damaged(damage) => spoil(&mut image, damage),
            Image::Tails(seed) => random_tails(&mut Generator::new(*seed), &mut image),
            Image::BadBlocks(seed) => random_bad(&mut Generator::new(*seed), &mut image),
            Image::GoodWord(word) => set_word(&mut image, 22, *word),
            Image::Other(bytes) => image = bytes.made(),
        }
        image
    }
}

/// A bit of a side that is flipped.
#[derive(Clone, Copy, Debug)]
pub struct Flip {
    side: usize,
    place: usize,
    bit: u8,
}

/// An HFE image that is judged quickly: cut, damaged, or of one to three tracks.
#[derive(Clone, Debug)]
pub enum Hfe {
    /// Tracks without sectors.
    Empty(Vec<Damage>),
    /// One track of a packed disk.
    Track(Vec<Flip>),
    /// The same in version 3, with codes about every so many cells, right and
    /// wrong ones by the seed.
    Coded(usize, u32, Vec<Damage>),
    /// Of version 3, with bytes and codes by chance.
    CodesByChance(u32, Vec<Damage>),
    /// Three tracks whose sectors share cells, from this seed.
    Shared(u32),
    /// No such image at all.
    Other(Bytes),
}

/// One without sectors that share cells.
pub fn hfe() -> impl Strategy<Value = Hfe> {
    let flip = (0..2_usize, 0..1_usize << 14, 0..8_u8).prop_map(|(side, place, bit)| Flip {
        side,
        place,
        bit,
    });
    let every = select(vec![3000_usize, 40, 5]);
    prop_oneof![
        3 => damage().prop_map(Hfe::Empty),
        2 => vec(flip, 0..3).prop_map(Hfe::Track),
        2 => (every, seed(), damage())
            .prop_map(|(every, seed, damage)| Hfe::Coded(every, seed, damage)),
        1 => (seed(), damage()).prop_map(|(seed, damage)| Hfe::CodesByChance(seed, damage)),
        1 => bytes(len()).prop_map(Hfe::Other),
    ]
}

/// Both sides of track 0 as the library packs them.
fn written() -> &'static [Vec<u8>; 2] {
    static WRITTEN: OnceLock<[Vec<u8>; 2]> = OnceLock::new();
    WRITTEN.get_or_init(|| sides(&packed(), 0))
}

/// The image with this damage.
fn spoilt(mut hfe: Vec<u8>, damage: &[Damage]) -> Vec<u8> {
    spoil(&mut hfe, damage);
    hfe
}

impl Hfe {
    pub fn made(&self) -> Vec<u8> {
        match self {
            Hfe::Empty(damage) => spoilt(empty_tracks(), damage),
            Hfe::Track(flips) => {
                let mut sides = written().clone();
                for Flip { side, place, bit } in flips {
                    let len = sides[*side].len();
                    sides[*side][place % len] ^= 1 << bit;
                }
                track_0(&sides)
            }
            Hfe::Coded(every, seed, damage) => {
                let generator = &mut Generator::new(*seed);
                let mut sides = written()
                    .each_ref()
                    .map(|side| coded(&cells(side), *every, generator));
                fill(&mut sides, generator);
                spoilt(coded_track_0(sides), damage)
            }
            Hfe::CodesByChance(seed, damage) => {
                let sides = bytes_and_codes(&mut Generator::new(*seed));
                spoilt(version_3_of_empty(track_0(&sides)), damage)
            }
            Hfe::Shared(seed) => rewrites::random_image(&mut Generator::new(*seed)),
            Hfe::Other(bytes) => bytes.made(),
        }
    }
}
