//! What each item is answered, and what is left where one is refused.

use super::super::answer::{batch, check, read};
use super::super::build::{fresh, full_directory, peek, three_files, word};
use super::super::call::{add_item, list_of, remove_item};
use super::lists::unsound;
use super::{adding, as_one_by_one, at_item, removing};

/// A batch whose items are all accepted answers 0 and no place (§8.19).
#[test]
fn done() {
    let items = [
        adding(b"f4", &[7; 3000]),
        removing(b"f2"),
        adding(b"F2", &[]),
        removing(b"f4"),
    ];
    for count in 0..=items.len() {
        let mut image = three_files();
        assert_eq!(as_one_by_one(&mut image, &items[..count]), [0; 4]);
    }
}

/// A refusal keeps its number and its own places and has the item, from 1, as
/// its third place; the items before it stand, and those after it are not
/// tried (§8.19).
#[test]
fn refused_items() {
    let long = vec![1; 800_000];
    for (refused, reply) in [
        (adding(b"", b"data"), [12, 0, 0, 0]),
        (adding(b"F3", b"data"), [13, 3, 0, 0]),
        (adding(b"new", &long), [15, 0, 0, 0]),
        (removing(&[b'n'; 37]), [12, 0, 0, 0]),
        (removing(b"none"), [14, 0, 0, 0]),
    ] {
        for before in 0..4 {
            let mut items = vec![
                adding(b"f4", &[7; 3000]),
                removing(b"f1"),
                adding(b"f5", &[]),
            ];
            items.truncate(before);
            let mut expected = three_files();
            assert_eq!(as_one_by_one(&mut expected, &items), [0; 4]);
            items.push(refused.clone());
            items.extend([removing(b"f2"), adding(b"late", b"data")]);
            let mut image = three_files();
            let answer = at_item(reply, before + 1);
            assert_eq!(as_one_by_one(&mut image, &items), answer);
            assert!(image == expected, "after {answer:?}");
        }
    }
}

/// Where the disk is not sound the first item is refused as its call is, with the
/// place that 8 to 10 name (§8.19).
#[test]
fn unsound_disks() {
    for (image, reply) in unsound() {
        for item in [remove_item(b"f1"), add_item(b"f4", 1, b"data")] {
            let mut lent = image.clone();
            let list = [item, remove_item(b"f2")].concat();
            assert_eq!(batch(&mut lent, &list), at_item(reply, 1));
            assert!(lent == image, "changed by {reply:?}");
        }
    }
}

/// A name's length byte of 0 or of 37 to 255 is 12 in the item's turn, not 20: the
/// item is whole (§7.12 §8.18).
#[test]
fn names_of_all_lengths() {
    for len in 0..=255 {
        let name = vec![b'n'; len];
        let expected = match len {
            1..=36 => [[0; 4], [0; 4]],
            _ => [[12, 0, 0, 2], [12, 0, 0, 1]],
        };
        let items = [adding(b"f4", &[]), adding(&name, &[3; 20]), removing(b"f1")];
        let mut image = three_files();
        assert_eq!(as_one_by_one(&mut image, &items), expected[0], "{len}");
        let items = [removing(&name), removing(b"f2")];
        assert_eq!(as_one_by_one(&mut image, &items), expected[1], "{len}");
    }
}

/// On an unsound disk 12 comes after 8, 9, 19, 10 and 11, and on a wrong list
/// after 20 (§7.27 §8.5).
#[test]
fn long_names_after_the_disk() {
    for len in [0, 37, 255] {
        let item = remove_item(&vec![b'n'; len]);
        for (image, reply) in unsound() {
            assert_eq!(batch(&mut image.clone(), &item), at_item(reply, 1));
            let wrong = [&item[..], &[3]].concat();
            assert_eq!(batch(&mut image.clone(), &wrong), [20, 0, 0, 2]);
        }
    }
}

/// An item finds what those before it left: a file by any spelling (§6.14), its
/// slot and its blocks (§8.19).
#[test]
fn items_after_one_another() {
    let mut image = fresh();
    let items = [
        adding(b"Reel_one", b"first"),
        adding(b"REEL_ONE", b"second"),
    ];
    assert_eq!(as_one_by_one(&mut image, &items), [13, 1, 0, 2]);
    let items = [
        removing(b"reel_ONE"),
        adding(b"Reel_ONE", b"third"),
        removing(b"reel_one"),
        removing(b"reel_one"),
    ];
    assert_eq!(as_one_by_one(&mut image, &items[..2]), [0; 4]);
    assert_eq!(peek(&image, 1, 64 + 16, 8), b"Reel_ONE");
    assert_eq!(read(&image, b"REEL_one", &[0; 5]).1, b"third");
    assert_eq!(as_one_by_one(&mut image, &items[2..]), [14, 0, 0, 2]);
    assert_eq!(check(&image), [0; 4]);
}

/// An item's date is its four bytes, highest first, as an add has it (§8.18).
#[test]
fn dates() {
    for date in [0, 1, 0x0102_0304, 0x8000_0000, u32::MAX] {
        let mut image = fresh();
        assert_eq!(batch(&mut image, &add_item(b"file", date, b"data")), [0; 4]);
        assert_eq!(peek(&image, 1, 64 + 52, 4), date.to_be_bytes());
    }
}

/// The update count has one more for each accepted item, and 2^32 - 1 is followed
/// by 0 (§6.3 §9.9).
#[test]
fn update_count() {
    let items = [
        adding(b"f4", &[]),
        removing(b"f4"),
        removing(b"f1"),
        removing(b"f1"),
    ];
    for (before, after) in [(3u32, 6u32), (0xFFFF_FFFD, 0), (u32::MAX, 2)] {
        let mut image = three_files();
        image[16..20].copy_from_slice(&before.to_be_bytes());
        assert_eq!(as_one_by_one(&mut image, &items), [14, 0, 0, 4]);
        assert_eq!(image[16..20], after.to_be_bytes());
    }
}

/// A file that is removed makes room for the next, its slot too: 15 is given by
/// what the items before left (§7.15 §8.10).
#[test]
fn room_by_items_before() {
    let mut image = full_directory();
    let room = 1536 * (479 - 1 - 23) - 64;
    // The next file takes a block for the directory, and then lacks one.
    let items = [
        removing(b"a"),
        adding(b"new", &vec![5; room]),
        adding(b"more", &[]),
    ];
    assert_eq!(as_one_by_one(&mut image, &items[1..]), [15, 0, 0, 1]);
    // It has the slot of `a`; one block is left, too few for the file after it,
    // with which the directory would grow.
    assert_eq!(as_one_by_one(&mut image, &items), [15, 0, 0, 3]);
    assert_eq!(word(&image, 20), 3);
    let items = [removing(b"b"), adding(b"more", &[])];
    assert_eq!(as_one_by_one(&mut image, &items), [0; 4]);
    assert_eq!(check(&image), [0; 4]);
}

/// A list may be lent in parts: two batches are as one of both lists, while all is
/// accepted (§8.19).
#[test]
fn batches_after_one_another() {
    let items: Vec<_> = (b'a'..b'm')
        .map(|name| adding(&[name], &[name; 1500]))
        .chain([removing(b"c"), removing(b"d")])
        .collect();
    let mut whole = fresh();
    assert_eq!(batch(&mut whole, &list_of(&items, &[])), [0; 4]);
    for split in 0..=items.len() {
        let mut image = fresh();
        for part in [&items[..split], &items[split..]] {
            assert_eq!(batch(&mut image, &list_of(part, &[])), [0; 4]);
        }
        assert!(image == whole, "split at {split}");
    }
}
