//! Formats with a list of bad blocks.

use super::super::all_calls::{all_calls, judged};
use super::super::answer::{check, format, format_bad};
use super::super::build::{peek, set_record, set_word, BAD};
use super::random_list;
use reference::geometry::IMAGE_LEN;
use reference::model::Model;
use std::collections::BTreeSet;
use support::noise::{noise, Generator};

/// Blocks that may be bad.
const ALL: std::ops::Range<u16> = 2..480;

/// A disk that is formatted over old bytes.
fn formatted(bad: &[u16]) -> Vec<u8> {
    let mut image = noise(8, IMAGE_LEN);
    assert_eq!(format_bad(&mut image, b"STOCK", 0x0607, bad), [0; 4]);
    image
}

/// The disk without bad blocks, where the records of these are FE FF FF and
/// both words say so.
fn marked(bad: &[u16]) -> Vec<u8> {
    let mut image = noise(9, IMAGE_LEN);
    assert_eq!(format(&mut image, b"STOCK", 0x0607), [0; 4]);
    let different: BTreeSet<u16> = bad.iter().copied().collect();
    for &block in &different {
        set_record(&mut image, block.into(), BAD);
    }
    set_word(&mut image, 20, 3 * (478 - different.len()));
    set_word(&mut image, 22, 1440 - 3 * different.len());
    image
}

/// Asserts what a format with this list writes, and what is said of it.
fn assert_formatted(bad: &[u16], counts: [usize; 3]) {
    let image = formatted(bad);
    assert!(image == marked(bad), "{} blocks", bad.len());
    let model = Model::format_bad(b"STOCK", 0x0607, bad).unwrap();
    assert!(image == model.image());
    assert_eq!(judged(&image), ([0; 4], counts));
    assert_eq!(check(&image), [0; 4]);
}

/// Records, free word and good word of the blocks in the list, and zero in all
/// their bytes, whatever the image held (§8.4 §6.9 §6.18). They are held (§8.14).
#[test]
fn what_a_list_writes() {
    assert_formatted(&[], [1434, 1440, 2]);
    assert_formatted(&[17], [1431, 1437, 3]);
    assert_formatted(&[2, 3, 138, 309, 479], [1419, 1425, 7]);
    let image = formatted(&[2, 479]);
    assert_eq!(peek(&image, 0, 20, 4), [0x05, 0x94, 0x05, 0x9A]);
    assert_eq!(
        peek(&image, 0, 96, 12),
        *b"\xF8\0\0\0\0\0\xFE\xFF\xFF\xFD\xFF\xFF"
    );
    assert_eq!(peek(&image, 0, 96 + 3 * 479, 3), BAD);
    for block in [2, 479] {
        assert_eq!(peek(&image, block, 0, 1536), [0; 1536]);
    }
}

/// Any order, and blocks more than once: B counts different ones (§8.4).
#[test]
fn order_and_repetitions() {
    let plain = formatted(&[5, 40, 41, 300]);
    for bad in [
        &[300, 41, 40, 5][..],
        &[41, 5, 300, 40],
        &[5, 5, 40, 41, 300],
        &[300, 5, 40, 300, 41, 5, 300],
        &[40, 41, 300, 5, 5, 5, 5, 5, 5],
    ] {
        assert!(formatted(bad) == plain, "{bad:?}");
    }
    assert_formatted(&[300, 5, 40, 300, 41, 5, 300], [1422, 1428, 6]);
    assert_formatted(&[479; 3], [1431, 1437, 3]);
}

/// Lists of any length: all blocks, more entries than there are blocks, more
/// than 65,536 (§8.4).
#[test]
fn long_lists() {
    let all: Vec<u16> = ALL.collect();
    assert_formatted(&all, [0, 6, 480]);
    assert_formatted(&all[1..], [3, 9, 479]);
    let backward: Vec<u16> = ALL.rev().chain(ALL).chain([300; 50]).collect();
    assert_formatted(&backward, [0, 6, 480]);
    let few = [477, 478, 479].repeat(23_334);
    assert_formatted(&few, [1425, 1431, 5]);
    assert_formatted(&[2; 480], [1431, 1437, 3]);
    // The last entries count too.
    for many in [480, 66_000] {
        let late = [vec![2; many], vec![479, 300]].concat();
        assert_formatted(&late, [1425, 1431, 5]);
    }
}

/// Bad blocks of the disk before are bad no more (§8.4), unless the list has
/// them.
#[test]
fn formats_after_one_another() {
    let mut image = formatted(&[2, 3, 300, 479]);
    assert_eq!(format_bad(&mut image, b"STOCK", 0x0607, &[300, 4]), [0; 4]);
    assert!(image == marked(&[300, 4]));
    assert_eq!(format(&mut image, b"STOCK", 0x0607), [0; 4]);
    assert!(image == marked(&[]));
}

/// Every block from 2 on may be bad (§7.12), each has its own record (§6.8).
#[test]
fn every_block_alone() {
    for block in ALL {
        let image = formatted(&[block]);
        assert!(image == marked(&[block]), "block {block}");
    }
}

/// The plain format is that with an empty list (§8.4).
#[test]
fn empty_list() {
    for (name, number) in [(&b""[..], 0), (b"A", 0xFFFF), (b"TEN BYTES.", 0x0102)] {
        let [mut one, mut other] = [3, 4].map(|seed| noise(seed, IMAGE_LEN));
        assert_eq!(format(&mut one, name, number), [0; 4]);
        assert_eq!(format_bad(&mut other, name, number, &[]), [0; 4]);
        assert!(one == other);
    }
}

/// Block 0, block 1 and all over 479 are refused (§7.12), wherever they stand in
/// the list; nothing is changed (§7.19).
#[test]
fn wrong_entries() {
    let mut image = noise(5, IMAGE_LEN);
    let mut refused = |bad: &[u16], wrong: u16| {
        let reply = format_bad(&mut image, b"STOCK", 1, bad);
        assert_eq!(reply, [12, 0, 0, 0], "{wrong}");
        assert_eq!(Model::format_bad(b"STOCK", 1, bad), None);
    };
    let over = [
        480, 481, 511, 512, 0x0211, 0x4011, 0x8000, 0x8011, 65_534, 65_535,
    ];
    for wrong in over.into_iter().chain([0, 1]) {
        refused(&[wrong], wrong);
        refused(&[wrong, 17, 18], wrong);
        refused(&[17, wrong, 18], wrong);
        refused(&[17, 18, wrong], wrong);
        refused(&[wrong, wrong], wrong);
        refused(&[0, 1, 480, wrong], wrong);
        // After all blocks, and after more entries than there are blocks.
        let all: Vec<u16> = ALL.chain([wrong]).collect();
        refused(&all, wrong);
        let mut long = vec![300; 66_000];
        *long.last_mut().unwrap() = wrong;
        refused(&long, wrong);
    }
}

/// 1 is judged first; name and list are judged by 12 alike (§8.4 §7.12).
#[test]
fn order_of_refusals() {
    for (image_len, name_len, bad, expected) in [
        (IMAGE_LEN - 1, 4, &[0][..], [1, 2, 0, 0]),
        (IMAGE_LEN + 1, 11, &[480], [1, 2, 0, 0]),
        (0, 0, &[2], [1, 2, 0, 0]),
        (IMAGE_LEN, 11, &[], [12, 0, 0, 0]),
        (IMAGE_LEN, 11, &[2, 479], [12, 0, 0, 0]),
        (IMAGE_LEN, 10, &[1], [12, 0, 0, 0]),
        (IMAGE_LEN, 11, &[1], [12, 0, 0, 0]),
        (IMAGE_LEN, 10, &[2, 479], [0; 4]),
    ] {
        let mut image = noise(6, image_len);
        let name = vec![b'x'; name_len];
        assert_eq!(format_bad(&mut image, &name, 5, bad), expected);
    }
}

/// Lists by chance give the model's image (§9.5), which every call accepts.
#[test]
fn random_lists() {
    let mut generator = Generator::new(61);
    for case in 0..30 {
        let bad = random_list(&mut generator, 40 * (case % 20));
        let different = bad.iter().collect::<BTreeSet<_>>().len();
        let free = 3 * (478 - different);
        assert_formatted(&bad, [free, free + 6, 2 + different]);
        assert_eq!(all_calls(&formatted(&bad), b"none"), [0; 4]);
    }
}
