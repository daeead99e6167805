//! Reading and writing a whole HFE image, and one sector of it.

use crate::measure::{Row, Runs};
use dhegluubin::{raw, HFE_LEN, IMAGE_LEN, SECTOR_LEN};
use std::time::Duration;
use support::codes::{with_codes, LETTERS};
use support::noise::{noise, Generator};

/// Where the entry of track 1 stands in a packed image.
const ENTRY_1: usize = 512 + 4;

/// A sector of a packed image rewritten; and the two sides of its track read,
/// which share its units: unpack of the image with a track 1 of two bytes,
/// which is refused there at once.
fn one_sector(runs: Runs, hfe: &Vec<u8>) -> Vec<Row> {
    let data = noise(2, SECTOR_LEN);
    let mut first_track = hfe.clone();
    first_track[ENTRY_1..ENTRY_1 + 4].copy_from_slice(&[0, 0, 2, 0]);
    let refused = [4, 1, 0, 1];
    vec![
        Row::measured(
            runs,
            "rewrite",
            Duration::from_millis(20),
            hfe,
            |lent| raw::rewrite(lent, 0, 1, 5, &data).number == 0,
            |lent| reference::rewrite(lent, 0, 1, 5, &data).number == 0,
        ),
        Row::measured(
            runs,
            "unpack, track 0 alone",
            Duration::from_secs(1),
            &vec![0x55; IMAGE_LEN],
            |lent| raw::unpack(&first_track, lent).parts() == refused,
            |lent| reference::unpack(&first_track, lent).parts() == refused,
        ),
    ]
}

/// Before about one byte of so many stands a code, in the disk that has codes.
const BYTES_PER_CODE: usize = 100;

/// A whole disk read: as version 1; as version 3 without codes, the same bytes
/// under other letters; and as version 3 with codes on all sides.
fn whole_disk(runs: Runs, hfe: &[u8]) -> Vec<Row> {
    let mut plain = hfe.to_vec();
    plain[..8].copy_from_slice(&LETTERS);
    let coded = with_codes(hfe, BYTES_PER_CODE, &mut Generator::new(3));
    let disks = [
        ("unpack", hfe),
        ("unpack, version 3", &plain),
        ("unpack, version 3 with codes", &coded),
    ];
    let row = |(name, hfe): (&str, &[u8])| {
        Row::measured(
            runs,
            name,
            Duration::from_secs(1),
            &vec![0x55; IMAGE_LEN],
            |lent| raw::unpack(hfe, lent).number == 0,
            |lent| reference::unpack(hfe, lent).number == 0,
        )
    };
    disks.into_iter().map(row).collect()
}

pub fn rows(runs: Runs) -> Vec<Row> {
    let image = noise(1, IMAGE_LEN);
    let mut hfe = vec![0; HFE_LEN];
    assert_eq!(raw::pack(&image, &mut hfe).number, 0);
    let mut rows = whole_disk(runs, &hfe);
    rows.push(Row::measured(
        runs,
        "pack",
        Duration::from_millis(500),
        &vec![0x55; HFE_LEN],
        |lent| raw::pack(&image, lent).number == 0,
        |lent| reference::pack(&image, lent).number == 0,
    ));
    rows.extend(one_sector(runs, &hfe));
    rows
}
