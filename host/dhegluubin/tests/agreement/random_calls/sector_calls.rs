//! Random calls on HFE images, made by library and reference.

use super::bytes::{bytes, len, seed, Bytes};
use super::images::{hfe, Hfe};
use super::Made;
use crate::sector_layer::both as sectors;
use crate::sector_layer::rewrites;
use dhegluubin::{HFE_LEN, IMAGE_LEN};
use proptest::prelude::*;
use proptest::sample::select;
use support::noise::Generator;

/// A call with its arguments.
#[derive(Clone, Debug)]
pub enum SectorCall {
    Place { block: usize, sector: usize },
    Unpack { hfe: Hfe },
    Pack { image: Bytes, hfe: Bytes },
    Rewrite { hfe: Hfe, sector: Sector },
}

/// What a rewrite is asked for.
#[derive(Clone, Debug)]
pub enum Sector {
    Named {
        track: usize,
        side: usize,
        r: usize,
        data: Bytes,
    },
    /// Most often a sector that has a header, with data of its own or with
    /// those that it has; the seed says which.
    Found(u32),
}

fn place() -> impl Strategy<Value = SectorCall> {
    let block = prop_oneof![1 => 0..600_usize, 4 => select(vec![0, 479, 480, usize::MAX])];
    let sector = select(vec![0, 1, 2, 3, usize::MAX]);
    (block, sector).prop_map(|(block, sector)| SectorCall::Place { block, sector })
}

/// Most are refused by length; few are packed, which takes longer.
fn pack() -> impl Strategy<Value = SectorCall> {
    prop_oneof![
        13 => (bytes(len()), bytes(len())),
        5 => (bytes(Just(IMAGE_LEN)), bytes(len())),
        2 => (bytes(Just(IMAGE_LEN)), bytes(Just(HFE_LEN))),
    ]
    .prop_map(|(image, hfe)| SectorCall::Pack { image, hfe })
}

/// A rewrite, most often of a sector of an image whose sectors share cells.
/// Numbers out of range and data of another length come now and then.
fn rewrite() -> impl Strategy<Value = SectorCall> {
    let great = || select(vec![2, 10, 80, 256, usize::MAX]);
    let track = prop_oneof![30 => 0..3_usize, 1 => great()];
    let side = prop_oneof![30 => 0..2_usize, 1 => great()];
    let r = prop_oneof![30 => 0..10_usize, 1 => great()];
    let data = prop_oneof![30 => bytes(Just(512)), 1 => bytes(len())];
    let named = (track, side, r, data).prop_map(|(track, side, r, data)| Sector::Named {
        track,
        side,
        r,
        data,
    });
    let shared = || seed().prop_map(Hfe::Shared);
    prop_oneof![
        2 => (hfe(), named.clone()),
        1 => (shared(), named),
        5 => (shared(), seed().prop_map(Sector::Found)),
    ]
    .prop_map(|(hfe, sector)| SectorCall::Rewrite { hfe, sector })
}

pub fn sector_call() -> impl Strategy<Value = SectorCall> {
    prop_oneof![
        8 => place(),
        12 => hfe().prop_map(|hfe| SectorCall::Unpack { hfe }),
        3 => pack(),
        12 => rewrite(),
    ]
}

fn make_pack(image: Bytes, hfe: Bytes) -> usize {
    let (image, mut hfe) = (image.made(), hfe.made());
    let (reply, after) = sectors::pack_into(&image, &hfe);
    let expected = reference::pack(&image, &mut hfe).parts();
    assert_eq!(reply, expected, "library, then reference");
    assert!(after == hfe, "other bytes than the reference");
    reply[0]
}

fn make_rewrite(hfe: &Hfe, sector: &Sector) -> usize {
    let hfe = hfe.made();
    let (track, side, r, data) = match sector {
        Sector::Named {
            track,
            side,
            r,
            data,
        } => (*track, *side, *r, data.made()),
        Sector::Found(seed) => {
            let call = rewrites::Call::random(&mut Generator::new(*seed), &hfe, 3);
            (call.track, call.side, call.r, call.data)
        }
    };
    sectors::rewrite(&hfe, track, side, r, &data).0[0]
}

impl SectorCall {
    /// Makes the call twice, and compares.
    pub fn make(&self) -> Made {
        match self {
            SectorCall::Place { block, sector } => ("place", sectors::place(*block, *sector)[0]),
            SectorCall::Unpack { hfe } => ("unpack", sectors::unpack(&hfe.made())[0]),
            SectorCall::Pack { image, hfe } => ("pack", make_pack(*image, *hfe)),
            SectorCall::Rewrite { hfe, sector } => ("rewrite", make_rewrite(hfe, sector)),
        }
    }
}
