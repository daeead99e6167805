//! The good word and reply 19: when it is given, and before and after what.

use super::super::all_calls::{all_calls, judged};
use super::super::answer::{add, first_track_text, remove};
use super::super::build::{
    count_free, fresh, fresh_bad, mark_bad, patch, peek, record, set_record, set_word, three_files,
    word, BAD, FREE,
};
use reference::geometry::TRACK_LEN;

/// 19 has no place.
const WRONG: [usize; 4] = [19, 0, 0, 0];

/// Asserts that every call and the program answer 19.
fn assert_wrong(image: &[u8], what: &str) {
    assert_eq!(all_calls(image, b"f2"), WRONG, "{what}");
    assert_eq!(judged(image), (WRONG, [0; 3]), "{what}");
    assert_eq!(first_track_text(&image[..TRACK_LEN]), "refused 19\n");
}

/// The good word is 1440 - 3 x the bad records (§6.18), and every other is 19,
/// in every call and the program (§7.26).
#[test]
fn good_words() {
    let bad: &[u16] = &[479, 100, 9];
    for (bad, right) in [(&[][..], 1440), (&[17], 1437), (bad, 1431)] {
        let mut image = fresh_bad(bad);
        let near = [1, 2, 3, 6, 256].into_iter();
        let near = near.flat_map(|by| [right - by, right + by]);
        for good in near.chain([0, 3, 477, 480, 1434, 1440, 32_768, 65_535]) {
            set_word(&mut image, 22, good);
            if good == right {
                assert_eq!(all_calls(&image, b"f2"), [0; 4]);
            } else {
                assert_wrong(&image, &format!("{good} for {right}"));
            }
        }
        for bit in 0..16 {
            set_word(&mut image, 22, right ^ 1 << bit);
            assert_wrong(&image, &format!("bit {bit} of {right}"));
        }
        set_word(&mut image, 22, right);
        assert_eq!(all_calls(&image, b"f2"), [0; 4]);
    }
}

/// So is a record that becomes bad or is bad no more (§6.18), with the word as it
/// was (§7.26).
#[test]
fn records_and_an_old_word() {
    for block in [9, 138, 309, 479] {
        let mut image = three_files();
        set_record(&mut image, block, BAD);
        count_free(&mut image);
        assert_wrong(&image, "a bad record more");
        mark_bad(&mut image, block);
        assert_eq!(all_calls(&image, b"f2"), [0; 4]);
        set_record(&mut image, block, FREE);
        count_free(&mut image);
        assert_wrong(&image, "a bad record less");
    }
}

/// Other records are not counted, whatever their numbers (§6.18).
#[test]
fn only_bad_records_count() {
    let mut image = fresh_bad(&[2, 3]);
    for bytes in [[0xFD, 0xFE, 0xFF], [0xFD, 0xFF, 0xFE], [0xFD, 0, 0]] {
        set_record(&mut image, 77, bytes);
        assert_eq!(all_calls(&image, b"f2"), [0; 4], "{bytes:02X?}");
    }
}

/// 19 comes after 8 and 9 and before 10 and 11 (§7.18 §8.5), in the program too,
/// which has no 10 (§8.14).
#[test]
fn order_of_refusals() {
    for bad in [&[][..], &[40, 41]] {
        let mut image = three_files();
        bad.iter().for_each(|&block| mark_bad(&mut image, block));
        set_word(&mut image, 20, 1);
        assert_eq!(all_calls(&image, b"f2"), [11, 0, 0, 0]);
        patch(&mut image, 1, 2 * 64 + 14, &[0, 0]);
        assert_eq!(all_calls(&image, b"f2"), [10, 2, 0, 0]);
        assert_eq!(judged(&image).0, [11, 0, 0, 0]);
        let wrong = word(&image, 22) - 3;
        set_word(&mut image, 22, wrong);
        assert_wrong(&image, "10 and 11 besides");
        // The last record is judged before the good word is.
        for (block, bytes) in [(479, [0xFF; 3]), (300, [0xFE, 0xFF, 0]), (0, BAD)] {
            set_record(&mut image, block, bytes);
            assert_eq!(all_calls(&image, b"f2"), [9, block, 0, 0]);
            assert_eq!(judged(&image).0, [9, block, 0, 0]);
        }
        for offset in [58, 38, 24, 0] {
            patch(&mut image, 0, offset, &[0xEE]);
            assert_eq!(all_calls(&image, b"f2"), [8, offset, 0, 0]);
            assert_eq!(judged(&image).0, [8, offset, 0, 0]);
        }
    }
}

/// Disks with one fault each: that of a slot, of the directory itself, of a
/// record that is nobody's, of the free word; and one without.
fn faulty_disks() -> [(Vec<u8>, [usize; 4]); 5] {
    let mut slot = three_files();
    patch(&mut slot, 1, 64 + 14, &[0, 37]);
    let mut directory = three_files();
    set_record(&mut directory, 1, FREE);
    count_free(&mut directory);
    let mut nobodys = three_files();
    set_record(&mut nobodys, 100, record(77, 0));
    count_free(&mut nobodys);
    let mut free_word = three_files();
    set_word(&mut free_word, 20, 1410);
    [
        (slot, [10, 1, 0, 0]),
        (directory, [10, 0, 0, 0]),
        (nobodys, [10, 77, 0, 0]),
        (free_word, [11, 0, 0, 0]),
        (three_files(), [0; 4]),
    ]
}

/// 19 comes before 10 alone and 11 alone (§7.26), and before the calls' own
/// refusals (§8.5): here no name, a name present, no room.
#[test]
fn before_what_the_calls_judge() {
    for (mut image, without) in faulty_disks() {
        assert_eq!(all_calls(&image, b"none"), without);
        set_word(&mut image, 22, 1437);
        for name in [&b""[..], b"f1", b"none", &[b'x'; 37]] {
            assert_eq!(all_calls(&image, name), WRONG);
            assert_eq!(add(&mut image, name, 0, &[0; 800_000]), WRONG);
            assert_eq!(remove(&mut image, name), WRONG);
        }
    }
}

/// The word at 22 is no matter of 8 (§7.8): with another field wrong that one is
/// named. The word at 24 is 1440 on every disk (§6.5).
#[test]
fn header_without_the_good_word() {
    for bad in [&[][..], &[50, 60, 70]] {
        for good in [0, 1431, 1440, 65_535] {
            for field in [24, 26, 28, 30, 32, 38] {
                let mut image = fresh_bad(bad);
                set_word(&mut image, 22, good);
                let wrong = word(&image, field) ^ 1;
                set_word(&mut image, field, wrong);
                assert_eq!(all_calls(&image, b"x"), [8, field, 0, 0]);
            }
        }
        for total in [0, 6, 1431, 1437, 65_535] {
            let mut image = fresh_bad(bad);
            set_word(&mut image, 24, total);
            assert_eq!(all_calls(&image, b"x"), [8, 24, 0, 0], "{total}");
            assert_eq!(judged(&image), ([8, 24, 0, 0], [0; 3]));
        }
    }
}

/// Add and remove leave the good word (§6.18), also where the directory grows.
#[test]
fn adds_and_removes_leave_it() {
    let mut image = fresh_bad(&[2, 30, 31, 479]);
    for index in 0..60 {
        assert_eq!(add(&mut image, &[b'a' + index], 0, &[1; 2000]), [0; 4]);
        assert_eq!(peek(&image, 0, 22, 4), [0x05, 0x94, 0x05, 0xA0]);
    }
    for index in 0..60 {
        assert_eq!(remove(&mut image, &[b'a' + index]), [0; 4]);
        assert_eq!(peek(&image, 0, 22, 4), [0x05, 0x94, 0x05, 0xA0]);
    }
    assert_eq!(judged(&image), ([0; 4], [1416, 1428, 8]));
}

/// A disk with B bad blocks holds 2 + B (§8.14), from no bad block to all.
#[test]
fn held_counts_bad_records() {
    let mut image = fresh();
    for count in 1..=478 {
        set_record(&mut image, 480 - count, BAD);
        if count % 53 == 0 || count == 478 {
            mark_bad(&mut image, 480 - count);
            let counts = [3 * (478 - count), 1440 - 3 * count, 2 + count];
            assert_eq!(judged(&image), ([0; 4], counts));
        }
    }
}
