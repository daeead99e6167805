//! The calls' own refusals, their order, and lent buffers.

use super::all_calls::all_calls;
use super::answer::{add, check, list, read, remove};
use super::build::{fresh, set_word, three_files};
use reference::geometry::IMAGE_LEN;

/// A block image has 737,280 bytes (§7.1).
#[test]
fn image_of_a_wrong_length() {
    let image = [three_files(), vec![0; IMAGE_LEN]].concat();
    for len in [0, 1, 512, 9216, IMAGE_LEN - 1, IMAGE_LEN + 1, 2 * IMAGE_LEN] {
        for name in [&b"f1"[..], b"", b"none"] {
            assert_eq!(all_calls(&image[..len], name), [1, 2, 0, 0]);
        }
    }
}

/// The image is judged before the call's own arguments, here 8 and 11 (§8.5).
#[test]
fn image_is_judged_before_the_name() {
    let mut image = three_files();
    for (offset, expected) in [(20, [11, 0, 0, 0]), (0, [8, 0, 0, 0])] {
        set_word(&mut image, offset, 3);
        for name in [&b""[..], &[b'x'; 37]] {
            assert_eq!(all_calls(&image, name), expected);
            assert_eq!(read(&image, name, &[]).0, expected);
            assert_eq!(add(&mut image, name, 1, &[1; 800_000]), expected);
            assert_eq!(remove(&mut image, name), expected);
        }
    }
}

/// A file's name has 1 to 36 bytes (§6.15), and else is refused (§7.12).
#[test]
fn file_names_have_1_to_36_bytes() {
    let mut image = fresh();
    for len in [0, 37, 38, 100, 255, 256, 257, 292, 65_537, 70_000] {
        let name = vec![b'n'; len];
        assert_eq!(read(&image, &name, &[]).0, [12, 0, 0, 0]);
        assert_eq!(add(&mut image, &name, 0, &[]), [12, 0, 0, 0]);
        assert_eq!(remove(&mut image, &name), [12, 0, 0, 0]);
    }
    for len in 1..=36 {
        let name = vec![b'n'; len];
        assert_eq!(add(&mut image, &name, 0, b"data"), [0; 4]);
        assert_eq!(
            read(&image, &name, &[0; 4]),
            ([0, 4, 0, 0], b"data".to_vec())
        );
    }
    assert_eq!(check(&image), [0; 4]);
}

/// A name may have bytes of any value (§6.15).
#[test]
fn names_of_any_bytes() {
    let mut image = fresh();
    for name in [
        &[0][..],
        &[0, 0],
        &[0xFF; 36],
        b" ",
        b"  ",
        b"a/b:c",
        &[0; 36],
    ] {
        assert_eq!(add(&mut image, name, 0, name), [0; 4]);
        assert_eq!(read(&image, name, &[9; 40]).0, [0, name.len(), 0, 0]);
    }
    assert_eq!(check(&image), [0; 4]);
    assert_eq!(remove(&mut image, &[0, 0, 0]), [14, 0, 0, 0]);
    assert_eq!(remove(&mut image, &[0, 0]), [0; 4]);
}

/// 13 names the slot (§7.13), and a call's own refusals come
/// in the order of their numbers (§7.18 §8.5).
#[test]
fn own_tests_come_in_order() {
    let mut image = three_files();
    let long = vec![1; 800_000];
    assert_eq!(add(&mut image, b"", 1, &long), [12, 0, 0, 0]);
    assert_eq!(add(&mut image, b"f2", 1, &long), [13, 2, 0, 0]);
    assert_eq!(add(&mut image, b"f4", 1, &long), [15, 0, 0, 0]);
    assert_eq!(read(&image, b"", &[]).0, [12, 0, 0, 0]);
    assert_eq!(read(&image, b"f4", &[]).0, [14, 0, 0, 0]);
    assert_eq!(read(&image, b"f3", &[]).0, [16, 5000, 0, 0]);
    assert_eq!(remove(&mut image, &[b'f'; 37]), [12, 0, 0, 0]);
    assert_eq!(remove(&mut image, b"f4"), [14, 0, 0, 0]);
    assert_eq!(image, three_files());
}

/// 16 says the bytes needed (§7.16);
/// the bytes after a result are left as they were (§8.8).
#[test]
fn read_into_buffers_of_all_kinds() {
    let image = three_files();
    for (len, expected) in [
        (0, [16, 1500, 0, 0]),
        (1, [16, 1500, 0, 0]),
        (1499, [16, 1500, 0, 0]),
        (1500, [0, 1500, 0, 0]),
        (1501, [0, 1500, 0, 0]),
        (1536, [0, 1500, 0, 0]),
        (4000, [0, 1500, 0, 0]),
    ] {
        let (reply, out) = read(&image, b"f2", &vec![0xAA; len]);
        assert_eq!(reply, expected);
        let count = expected[1] * usize::from(expected[0] == 0);
        assert!(out[..count].iter().all(|&byte| byte == b'2'));
        assert!(out[count..].iter().all(|&byte| byte == 0xAA));
    }
    assert_eq!(read(&image, b"f1", &[]).0, [0; 4]);
    assert_eq!(read(&image, b"f1", &[7; 3]), ([0; 4], vec![7; 3]));
}

/// 16 says the bytes needed (§7.16); done, the first place is the number of
/// bytes written (§7.17), and the bytes after them are left (§8.8).
#[test]
fn list_into_buffers_of_all_kinds() {
    let image = three_files();
    for (len, expected) in [
        (0, [16, 192, 0, 0]),
        (64, [16, 192, 0, 0]),
        (191, [16, 192, 0, 0]),
        (192, [0, 192, 0, 0]),
        (193, [0, 192, 0, 0]),
        (500, [0, 192, 0, 0]),
    ] {
        let (reply, out) = list(&image, &vec![0xAA; len]);
        assert_eq!(reply, expected);
        let count = expected[1] * usize::from(expected[0] == 0);
        assert!(out[count..].iter().all(|&byte| byte == 0xAA));
    }
    assert_eq!(list(&fresh(), &[]).0, [0; 4]);
    assert_eq!(list(&fresh(), &[7; 3]), ([0; 4], vec![7; 3]));
}
