//! How a list is read: 1, then 20 at the first wrong item, before any item is
//! tried.

use super::super::answer::{batch, check};
use super::super::build::{fresh, patch, set_record, set_word, three_files};
use super::super::call::{add_item, list_of, remove_item};
use super::{adding, as_one_by_one, removing, WRONG_ENDS};
use reference::geometry::IMAGE_LEN;
use support::noise::noise;

/// Disks that are refused with 8, 9, 19, 10 and 11, each with its reply.
pub fn unsound() -> [(Vec<u8>, [usize; 4]); 5] {
    let spoilt = |spoil: &dyn Fn(&mut [u8])| {
        let mut image = three_files();
        spoil(&mut image);
        let reply = check(&image);
        (image, reply)
    };
    let disks = [
        spoilt(&|image| set_word(image, 28, 17)),
        spoilt(&|image| set_record(image, 300, [0xFF; 3])),
        spoilt(&|image| set_word(image, 22, 1437)),
        spoilt(&|image| patch(image, 1, 2 * 64, &[0; 64])),
        spoilt(&|image| set_word(image, 20, 0)),
    ];
    let replies = disks.each_ref().map(|(_, reply)| *reply);
    let expected = [
        [8, 28, 0, 0],
        [9, 300, 0, 0],
        [19, 0, 0, 0],
        [10, 2, 0, 0],
        [11, 0, 0, 0],
    ];
    assert_eq!(replies, expected);
    disks
}

/// Makes a batch that leaves the image as it was, whatever it holds.
fn assert_kept(image: &[u8], list: &[u8], expected: [usize; 4]) {
    let mut lent = image.to_vec();
    assert_eq!(batch(&mut lent, list), expected);
    assert!(lent == image, "changed by {expected:?}");
}

/// A list without items is done on every image of the right length, sound or
/// not, and changes no byte (§8.19).
#[test]
fn empty_lists() {
    let images = [
        fresh(),
        three_files(),
        vec![0; IMAGE_LEN],
        noise(4, IMAGE_LEN),
    ];
    let unsound = unsound().map(|(image, _)| image);
    for image in images.iter().chain(&unsound) {
        assert_kept(image, &[], [0; 4]);
    }
}

/// The image's length is judged before the list, once for the whole call: the
/// third place is 0, with an empty list and a wrong one too (§7.1 §8.19).
#[test]
fn images_of_a_wrong_length() {
    let image = [three_files(), vec![0; IMAGE_LEN]].concat();
    let good = list_of(&[removing(b"f1"), adding(b"f4", b"data")], &[]);
    for len in [0, 1, 512, 9216, IMAGE_LEN - 1, IMAGE_LEN + 1, 2 * IMAGE_LEN] {
        for list in [&good[..], &[], &[0], &[1], &good[..5]] {
            assert_kept(&image[..len], list, [1, 2, 0, 0]);
        }
    }
}

/// Another kind than 1 and 2 is 20, also as the last byte of all (§7.27).
#[test]
fn other_kinds() {
    let image = three_files();
    let good = remove_item(b"f1");
    for kind in (0..=255).filter(|kind| ![1, 2].contains(kind)) {
        assert_kept(&image, &[kind], [20, 0, 0, 1]);
        for before in 0..3 {
            let mut list = good.repeat(before);
            list.push(kind);
            assert_kept(&image, &list, [20, 0, 0, before + 1]);
            list.extend(remove_item(b"f2"));
            assert_kept(&image, &list, [20, 0, 0, before + 1]);
        }
    }
}

/// Of a list that is cut at any byte the item that is cut is wrong; where no
/// item is, those that are left are made (§7.27 §8.18).
#[test]
fn cut_at_every_byte() {
    let items = [
        adding(b"f4", &[7; 20]),
        removing(b"f1"),
        adding(b"f1", &[]),
        removing(b"f4"),
        adding(b"a longer name", &[2; 30]),
    ];
    let list = list_of(&items, &[]);
    let ends: Vec<usize> = (0..=items.len())
        .map(|count| list_of(&items[..count], &[]).len())
        .collect();
    for cut in 0..=list.len() {
        let whole = ends.iter().filter(|&&end| end <= cut).count() - 1;
        if ends[whole] == cut {
            let mut image = three_files();
            assert_eq!(as_one_by_one(&mut image, &items[..whole]), [0; 4]);
        } else {
            assert_kept(&three_files(), &list[..cut], [20, 0, 0, whole + 1]);
        }
    }
}

/// 20 comes before any item is tried: with items before the wrong one that are
/// right, that would be refused, and on disks that are not sound (§7.27 §8.19).
#[test]
fn wrong_items_after_others() {
    let refused = remove_item(b"none");
    let accepted = add_item(b"new", 1, b"data");
    let unsound = unsound().map(|(image, _)| image);
    for wrong in WRONG_ENDS {
        for (before, count) in [
            (Vec::new(), 0),
            (refused.clone(), 1),
            (accepted.clone(), 1),
            ([accepted.clone(), refused.clone()].concat(), 2),
            (remove_item(&[b'n'; 37]), 1),
            (accepted.repeat(60), 60),
            (refused.repeat(300), 300),
        ] {
            let list = [&before, wrong].concat();
            assert_kept(&three_files(), &list, [20, 0, 0, count + 1]);
        }
        for image in &unsound {
            assert_kept(image, &[&refused, wrong].concat(), [20, 0, 0, 2]);
        }
    }
}

/// The first of several wrong items is named (§7.27).
#[test]
fn the_first_wrong_item() {
    let good = remove_item(b"none");
    for wrong in [&[0][..], &[7], &[1, 255], &[2, 0, 0]] {
        let list = [&good[..], wrong, &good, &[9]].concat();
        assert_kept(&fresh(), &list, [20, 0, 0, 2]);
    }
}

/// A length of data has four bytes, up to 2^32 - 1; with what stands before the
/// data it is over 2^32, and that is no short item (§7.27 §8.18).
#[test]
fn lengths_of_data_near_2_to_the_32() {
    let good = remove_item(b"none");
    for name_len in [0, 1, 36, 255] {
        let head = [&[2, name_len][..], &vec![b'n'; name_len.into()], &[0; 4]].concat();
        // With these the item's length is 0 to 39, were it counted in 32 bits.
        let start = head.len() as u32 + 4;
        let wrapped = (0..start.min(40)).map(|len| len.wrapping_sub(start));
        let powers = [16, 24, 31].map(|power| (1 << power) + 3);
        let most = [u32::MAX, u32::MAX - 1, (1 << 31) - 1];
        for len in wrapped.chain(powers).chain(most) {
            let len = len.to_be_bytes();
            for data in [0, 1, 40, 5000] {
                let list = [&good[..], &head, &len, &vec![1; data], &good].concat();
                assert_kept(&fresh(), &list, [20, 0, 0, 2]);
            }
        }
    }
}

/// What is in the data is no item, even where it looks like one (§8.18).
#[test]
fn lists_in_data() {
    let inner = list_of(&[removing(b"f1"), adding(b"f4", b"data")], &[9]);
    let items = [
        adding(b"list", &inner),
        adding(b"again", &add_item(b"list", 1, &inner)),
        removing(b"list"),
    ];
    let mut image = three_files();
    assert_eq!(as_one_by_one(&mut image, &items), [0; 4]);
    assert_eq!(as_one_by_one(&mut image, &[removing(b"f1")]), [0; 4]);
    assert_eq!(as_one_by_one(&mut image, &[removing(b"f4")]), [14, 0, 0, 1]);
}
