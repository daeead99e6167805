//! The safe calls: named refusals.

use super::build::{cell_byte, disk, in_sector, packed, set_entry};
use super::shared::spoil::{copy, spoil, DATA, SYNC};
use dhegluubin::{pack, place, rewrite, unpack, Edition, Lent, Refusal, IMAGE_LEN};
use support::codes::{LETTERS, WEAK};

/// Each wrong length with its place (§7.1).
#[test]
fn wrong_lengths() {
    let hfe_wrong = Err(Refusal::Length { lent: Lent::Hfe });
    let image_wrong = Err(Refusal::Length { lent: Lent::Blocks });
    assert_eq!(unpack(&[], &mut []), hfe_wrong);
    assert_eq!(unpack(&packed(), &mut []), image_wrong);
    assert_eq!(pack(&[], &mut []), hfe_wrong);
    assert_eq!(pack(&[], &mut packed()), image_wrong);
    assert_eq!(pack(disk(), &mut []), hfe_wrong);
    assert_eq!(rewrite(&mut [], 0, 0, 1, &[0; 512]), hfe_wrong);
}

/// The refusal of an HFE image, which changes nothing.
fn refusal(hfe: &[u8]) -> Refusal {
    let mut image = vec![0x55; IMAGE_LEN];
    let refusal = unpack(hfe, &mut image).unwrap_err();
    assert!(image.iter().all(|&byte| byte == 0x55));
    refusal
}

#[test]
fn wrong_sectors() {
    let (track, side, sector) = (1, 1, 4);
    let expected = [
        Refusal::NoHeader {
            track,
            side,
            sector,
        },
        Refusal::SeveralHeaders {
            track,
            side,
            sector,
        },
        Refusal::NoDataField {
            track,
            side,
            sector,
        },
        Refusal::DataCrc {
            track,
            side,
            sector,
        },
    ];
    for (number, expected) in (4..).zip(expected) {
        let mut hfe = packed();
        spoil(&mut hfe, number, track, side, sector);
        assert_eq!(refusal(&hfe), expected);
    }
}

#[test]
fn wrong_header_and_table() {
    let mut hfe = packed();
    set_entry(&mut hfe, 1, 33, 2, 1);
    assert_eq!(refusal(&hfe), Refusal::TrackTable { track: 33 });
    hfe[10] = 1;
    assert_eq!(refusal(&hfe), Refusal::HfeHeader { offset: 10 });
}

/// Either version is unpacked. A wrong code is named with track, side and place
/// (§7.25), and version 3 is not rewritten (§8.15).
#[test]
fn version_3() {
    let mut hfe = packed();
    assert_eq!(Edition::of(&hfe), Some(Edition::Version1));
    hfe[..8].copy_from_slice(&LETTERS);
    assert_eq!(Edition::of(&hfe), Some(Edition::Version3));
    let mut image = vec![0; IMAGE_LEN];
    assert_eq!(unpack(&hfe, &mut image), Ok(()));
    assert!(image == disk());
    hfe[cell_byte(33, 1, 7000)] = WEAK;
    let wrong_code = Refusal::WrongCode {
        track: 33,
        side: 1,
        place: 7000,
    };
    assert_eq!(refusal(&hfe), wrong_code);
    let not_rewritten = Err(Refusal::HfeHeader { offset: 0 });
    assert_eq!(rewrite(&mut hfe, 0, 0, 1, &[0; 512]), not_rewritten);
}

/// Blocks and sectors out of range (§7.12).
#[test]
fn placements() {
    assert_eq!(place(6, 2), Ok(20));
    for (block, sector) in [(480, 0), (0, 3), (usize::MAX, usize::MAX)] {
        assert_eq!(place(block, sector), Err(Refusal::Argument));
    }
}

/// Done, then refused: with wrong numbers or lengths (§7.12), as misread
/// (§7.24), and for the sector itself (§8.15).
#[test]
fn rewrites() {
    let mut hfe = packed();
    let data = [0x51; 512];
    assert_eq!(rewrite(&mut hfe, 1, 1, 4, &data), Ok(()));
    assert_eq!(rewrite(&mut hfe, 80, 1, 4, &data), Err(Refusal::Argument));
    assert_eq!(rewrite(&mut hfe, 1, 1, 4, &[]), Err(Refusal::Argument));
    // The header of sector 7 once more, in the data of sector 4: with that
    // lost the sector would no longer have two.
    let (from, to) = (in_sector(7, SYNC), in_sector(4, DATA + 9));
    copy(&mut hfe, 1, 1, from, to, 20);
    let before = hfe.clone();
    assert_eq!(rewrite(&mut hfe, 1, 1, 4, &data), Err(Refusal::Misread));
    let several = Refusal::SeveralHeaders {
        track: 1,
        side: 1,
        sector: 7,
    };
    assert_eq!(rewrite(&mut hfe, 1, 1, 7, &data), Err(several));
    assert!(hfe == before);
}
