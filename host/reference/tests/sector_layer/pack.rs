//! A written image byte by byte (§5.3, §5.4, §5.5).

use crate::answer::{assert_unpacks, pack_into};
use crate::shared::build::{disk, packed};
use reference::cells::side_cells;
use reference::geometry::IMAGE_LEN;
use reference::pack::HFE_LEN;
use reference::written::written_side_cells;

/// All bytes of the header (§5.4) and of the table (§5.3).
#[test]
fn header_and_table_byte_by_byte() {
    let hfe = packed();
    assert_eq!(hfe.len(), 2_008_064);
    let mut start = b"HXCPICFE".to_vec();
    start.extend([0, 80, 2, 0, 250, 0, 0x2C, 0x01, 0x07, 0xFF, 1, 0]);
    start.resize(512, 0xFF);
    for track in 0..80u16 {
        start.extend((2 + 49 * track).to_le_bytes());
        start.extend([0xA8, 0x61]);
    }
    start.resize(1024, 0xFF);
    assert_eq!(hfe[..1024], start);
}

/// Each side has the nine sectors that follow each other in the block image
/// (§1.2), as a side is written (§5.2); the unused ends are FF (§5.5).
#[test]
fn sides_and_unused_ends() {
    let hfe = packed();
    for (track, part) in hfe[1024..].chunks(512 * 49).enumerate() {
        for side in [0, 1] {
            let start = 512 * (18 * track + 9 * side);
            let data = disk()[start..start + 4608].try_into().unwrap();
            let cells = written_side_cells(track as u8, side as u8, data);
            assert!(side_cells(part, 25_000, side) == cells, "track {track}");
        }
        // In the last unit 212 bytes of each half are used.
        let last = &part[512 * 48..];
        assert!(last[212..256].iter().all(|&byte| byte == 0xFF));
        assert!(last[256 + 212..].iter().all(|&byte| byte == 0xFF));
    }
}

/// Unpacked, a packed image gives the same block image (§8.2).
#[test]
fn round_trip() {
    assert_unpacks(&packed(), disk());
    for byte in [0x00, 0xFF, 0xA1, 0x4E, 0xE5] {
        let image = vec![byte; IMAGE_LEN];
        let (reply, hfe) = pack_into(&image, &vec![0x55; HFE_LEN]);
        assert_eq!(reply, [0; 4]);
        assert_unpacks(&hfe, &image);
    }
}

#[test]
fn every_byte_is_written() {
    // One buffer is lent full of 55; another one full of 00 gives the same.
    let (_, hfe) = pack_into(disk(), &vec![0; HFE_LEN]);
    assert!(hfe == packed());
}
