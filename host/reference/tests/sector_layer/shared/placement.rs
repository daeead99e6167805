//! Placement: its tables and its rule (§1.4, §1.6), the values of §1.5, and
//! numbers that are out of range.

use super::answer::place;
use support::cases::{expected_reply, Requested};
use support::json::Contents;

/// Side and place by the remainder of a running sector by 18; 80 (hex) is added
/// on side 1 (§1.4).
pub const SIDE_PLACE: [u8; 18] = [
    0x00, 0x03, 0x06, 0x80, 0x83, 0x86, 0x01, 0x04, 0x07, 0x81, 0x84, 0x87, 0x02, 0x05, 0x08, 0x82,
    0x85, 0x88,
];

/// The remainder by side and place (§1.6).
pub const BACKWARD: [u8; 18] = [
    0x00, 0x06, 0x0C, 0x01, 0x07, 0x0D, 0x02, 0x08, 0x0E, 0x03, 0x09, 0x0F, 0x04, 0x0A, 0x10, 0x05,
    0x0B, 0x11,
];

const FOUR: Requested = Requested {
    lines: include_str!("../../data/requests/four.jsonl"),
    count: 60,
};

/// Track, side and place (§1.6) of a sector of a block, the track offset taken
/// off.
fn placed(block: usize, sector: usize) -> (usize, usize, usize) {
    let [number, image, ..] = place(block, sector);
    assert_eq!(number, 0, "block {block}, sector {sector}");
    let track = image / 18;
    (track, image % 18 / 9, (image % 9 + 4 * track) % 9)
}

/// All 480 blocks stand as the table says (§1.4 §1.5).
#[test]
fn placed_by_the_table() {
    for running in 0..1440 {
        let entry = usize::from(SIDE_PLACE[running % 18]);
        let expected = (running / 18, entry / 0x80, entry % 0x80);
        assert_eq!(placed(running / 3, running % 3), expected, "{running}");
    }
}

/// What stands at each side and place of each track is what the backward table
/// says (§1.6).
#[test]
fn placed_by_the_backward_table() {
    for (at, &remainder) in BACKWARD.iter().enumerate() {
        for track in 0..80 {
            let running = 18 * track + usize::from(remainder);
            let expected = (track, at / 9, at % 9);
            assert_eq!(placed(running / 3, running % 3), expected, "{running}");
        }
    }
}

/// The side is the block's parity, and the place that of sector and block pair,
/// of which a track has three (§1.4).
#[test]
fn placed_by_the_rule() {
    for block in 0..480 {
        let pair = block / 2 % 3;
        for sector in 0..3 {
            let expected = (block / 6, block % 2, 3 * sector + pair);
            assert_eq!(placed(block, sector), expected, "block {block}");
        }
    }
}

/// Outside answers of the call place (§8.3), also out of range (§7.12).
#[test]
fn placements_of_four() {
    FOUR.run_kind("place", 6, |case, answer| {
        let calls = case.member("calls").list();
        let replies = answer.member("replies").list();
        assert_eq!((calls.len(), replies.len()), (100, 100));
        for (call, reply) in calls.iter().zip(replies) {
            let [block, sector] = call.members(["block", "sector"]);
            let parts = place(block.size(), sector.size());
            assert_eq!(parts[..], expected_reply(reply), "{call:?}");
        }
    });
}

/// The call place (§8.3): the table of values (§1.5),
/// by block and sector within the block (§1.3).
#[test]
fn stated_placements() {
    for (block, sector, expected) in [
        (0, 0, 0),
        (2, 0, 1),
        (1, 0, 9),
        (1, 1, 12),
        (1, 2, 15),
        (6, 0, 23),
        (6, 1, 26),
        (6, 2, 20),
        (7, 0, 32),
        (474, 0, 1430),
        (479, 2, 1438),
    ] {
        assert_eq!(place(block, sector), [0, expected, 0, 0]);
    }
}

/// 480 blocks of 3 sectors (§1.1), and no other (§7.12).
#[test]
fn all_blocks_and_sectors_and_some_beyond() {
    for block in 0..600 {
        for sector in 0..10 {
            let within = block < 480 && sector < 3;
            let [number, ..] = place(block, sector);
            assert_eq!(number, if within { 0 } else { 12 });
        }
    }
}

#[test]
fn numbers_that_would_wrap() {
    let third = usize::MAX / 3;
    for number in [480, third, third + 1, 1 << 63, usize::MAX - 1, usize::MAX] {
        for (block, sector) in [(number, 0), (0, number), (number, number)] {
            assert_eq!(place(block, sector), [12, 0, 0, 0]);
        }
    }
}
