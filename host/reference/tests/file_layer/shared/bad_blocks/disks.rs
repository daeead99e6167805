//! Disks with bad blocks as other programs may leave them.

use super::super::all_calls::{all_calls, judged};
use super::super::answer::{add, cases, check, list, read, remove};
use super::super::build::{
    bad_blocks, count_free, count_good, entry, fresh, full_directory, long_directory, mark_bad,
    patch, peek, record, record_of, records, scattered, set_record, set_word, three_files, word,
    BAD, FREE,
};
use super::random_bad;
use support::noise::{noise, Generator};

/// Bad records with their blocks' bytes, and the good word.
fn bad_bytes(image: &[u8]) -> (Vec<(usize, Vec<u8>)>, usize) {
    let blocks = bad_blocks(image).into_iter();
    let bytes = blocks.map(|block| (block, peek(image, block, 0, 1536)));
    (bytes.collect(), word(image, 22))
}

/// Bad blocks are no longer of no kind (§6.9): all calls accept them, and give
/// what they give without them (§8.5).
#[test]
fn bad_blocks_are_accepted() {
    for bad in [&[9][..], &[479], &[138, 309], &[9, 10, 11, 12, 200, 479]] {
        let mut image = three_files();
        for &block in bad {
            mark_bad(&mut image, block);
        }
        assert_eq!(all_calls(&image, b"f3"), [0; 4], "{bad:?}");
        let lost = 3 * bad.len();
        let counts = [1413 - lost, 1440 - lost, 9 + bad.len()];
        assert_eq!(judged(&image), ([0; 4], counts));
        assert_eq!(list(&image, &[0; 192]), list(&three_files(), &[0; 192]));
        assert_eq!(read(&image, b"f3", &[0; 5000]).1, [b'3'; 5000]);
    }
}

/// Block 1 may be bad, where the directory is elsewhere (§6.9 §7.23); an add
/// passes over it (§8.11).
#[test]
fn block_1_is_bad() {
    let mut image = scattered();
    mark_bad(&mut image, 1);
    patch(&mut image, 1, 0, &[0x66; 1536]);
    assert_eq!(all_calls(&image, b"b"), [0; 4]);
    assert_eq!(judged(&image), ([0; 4], [1419, 1437, 7]));
    assert_eq!(add(&mut image, b"new", 0, &[4; 1500]), [0; 4]);
    assert_eq!(record_of(&image, 1), BAD);
    assert_eq!(record_of(&image, 2), record(2, 0));
    assert_eq!(record_of(&image, 3), record(2, 1));
    assert_eq!(peek(&image, 1, 0, 1536), [0x66; 1536]);
    assert_eq!(remove(&mut image, b"new"), [0; 4]);
    assert_eq!(peek(&image, 1, 0, 1536), [0x66; 1536]);
    assert_eq!(word(&image, 22), 1437);
    assert_eq!(check(&image), [0; 4]);
}

/// Without another block the directory has none where block 1 is bad: file 0 is
/// at fault (§7.20).
#[test]
fn directory_in_a_bad_block() {
    let mut image = three_files();
    mark_bad(&mut image, 1);
    assert_eq!(all_calls(&image, b"f1"), [10, 0, 0, 0]);
    assert_eq!(judged(&image), ([0; 4], [1413, 1437, 9]));
}

/// Nor has a file its whole data where one of its blocks is bad (§7.20).
#[test]
fn files_with_a_bad_block() {
    for (block, file) in [(2, 1), (4, 2), (5, 3), (8, 3)] {
        let mut image = three_files();
        mark_bad(&mut image, block);
        assert_eq!(all_calls(&image, b"f2"), [10, file, 0, 0], "block {block}");
    }
}

/// A file whose blocks lie around bad ones is read by its sequences (§6.10), and
/// removed without them (§8.13).
#[test]
fn a_file_around_bad_blocks() {
    let mut image = three_files();
    // f3 has 5 to 8; its last two blocks move to 12 and 10.
    for (from, to) in [(7, 12), (8, 10)] {
        let bytes = peek(&image, from, 0, 1536);
        patch(&mut image, to, 0, &bytes);
        set_record(&mut image, to, record(3, from - 5));
        mark_bad(&mut image, from);
        patch(&mut image, from, 0, &[0x99; 1536]);
    }
    mark_bad(&mut image, 11);
    assert_eq!(all_calls(&image, b"f3"), [0; 4]);
    assert_eq!(read(&image, b"f3", &[0; 5000]).1, [b'3'; 5000]);
    let mut expected = records(&image);
    for block in [5, 6, 10, 12] {
        expected[block] = FREE.to_vec();
    }
    let bad = bad_bytes(&image);
    assert_eq!(remove(&mut image, b"f3"), [0; 4]);
    assert_eq!(records(&image), expected);
    assert_eq!(bad_bytes(&image), bad);
    assert_eq!(judged(&image), ([0; 4], [1416, 1431, 8]));
}

/// FE with another tail than FF FF is of no kind (§6.9), wherever it stands, also
/// where the good word counts it (§7.9).
#[test]
fn other_tails_are_of_no_kind() {
    let tails = (0..=254).flat_map(|byte| [[byte, 0xFF], [0xFF, byte], [byte, byte]]);
    for (index, tail) in tails.enumerate() {
        let block = [1, 2, 9, 138, 309, 479][index % 6];
        let mut image = three_files();
        set_record(&mut image, block, [0xFE, tail[0], tail[1]]);
        match index % 5 {
            0 => mark_bad(&mut image, 300),
            1 => set_word(&mut image, 22, 1437),
            _ => (),
        }
        assert_eq!(check(&image), [9, block, 0, 0], "{tail:02X?}");
        if index % 64 == 0 {
            assert_eq!(all_calls(&image, b"f1"), [9, block, 0, 0]);
            assert_eq!(judged(&image), ([9, block, 0, 0], [0; 3]));
        }
    }
}

/// Block 0 has the system's record alone: FE FF FF is 9 there (§7.9), whether
/// the words count it or not.
#[test]
fn never_at_block_0() {
    let mut image = three_files();
    set_record(&mut image, 0, BAD);
    for _ in 0..2 {
        assert_eq!(all_calls(&image, b"f2"), [9, 0, 0, 0]);
        assert_eq!(judged(&image), ([9, 0, 0, 0], [0; 3]));
        count_free(&mut image);
        count_good(&mut image);
    }
}

/// A bad record is no part of a file: FE FF FF would say file FEF and sequence
/// FFF (hex), and no record bears a number of F80 or more (§7.22).
#[test]
fn bad_records_bear_no_file_number() {
    let mut image = long_directory(171);
    mark_bad(&mut image, 479);
    assert_eq!(all_calls(&image, b"x"), [0; 4]);
    let slot = 0xFEF;
    let held = entry(64, 1, b"x");
    patch(&mut image, 1 + slot / 24, 64 * (slot % 24), &held);
    assert_eq!(all_calls(&image, b"x"), [10, slot, 0, 0]);
}

/// The directory grows past bad blocks (§8.10), and their old bytes stay (§8.12).
#[test]
fn directory_grows_past_old_bytes() {
    let mut image = full_directory();
    for block in [2, 3, 5, 456, 455] {
        mark_bad(&mut image, block);
        patch(&mut image, block, 0, &[block as u8; 1536]);
    }
    let bad = bad_bytes(&image);
    let mut expected = records(&image);
    expected[4] = record(0, 1).to_vec();
    expected[6] = record(24, 0).to_vec();
    expected[7] = record(24, 1).to_vec();
    assert_eq!(add(&mut image, b"new", 0, &[1; 1500]), [0; 4]);
    assert_eq!(records(&image), expected);
    assert_eq!(bad_bytes(&image), bad);
    assert_eq!(remove(&mut image, b"new"), [0; 4]);
    assert_eq!(bad_bytes(&image), bad);
    assert_eq!(judged(&image), ([0; 4], [3 * 449, 1425, 31]));
}

/// Where bad blocks are all that is left there is no room (§7.15), neither for
/// a file nor for the directory (§8.10).
#[test]
fn bad_blocks_are_no_room() {
    let mut image = fresh();
    for block in 2..479 {
        set_record(&mut image, block, BAD);
    }
    mark_bad(&mut image, 2);
    assert_eq!(add(&mut image, b"two", 0, &[1; 1473]), [15, 0, 0, 0]);
    assert_eq!(add(&mut image, b"one", 0, &[1; 1472]), [0; 4]);
    assert_eq!(record_of(&image, 479), record(1, 0));
    assert_eq!(add(&mut image, b"next", 0, &[]), [15, 0, 0, 0]);
    assert_eq!(judged(&image), ([0; 4], [0, 9, 480]));
}

/// Neither add nor remove writes a byte of a bad block, of its record or of the
/// good word (§8.12 §8.13): old bytes stay, accepted or refused.
#[test]
fn calls_leave_bad_blocks() {
    let mut generator = Generator::new(66);
    for case in 0..cases(10) {
        println!("case {case}");
        let mut image = match case % 3 {
            0 => scattered(),
            1 => fresh(),
            _ => three_files(),
        };
        random_bad(&mut generator, &mut image);
        let bad = bad_bytes(&image);
        for index in 0..20 {
            let name = [b'f', b'0' + generator.below(6) as u8];
            let len = *generator.choice(&[0, 1472, 9000, 300_000]);
            let [number, ..] = match generator.below(3) {
                0 => remove(&mut image, &name),
                _ => add(&mut image, &name, 1, &noise(index, len)),
            };
            assert!([0, 13, 14, 15].contains(&number));
            assert_eq!(bad_bytes(&image), bad);
        }
        assert_eq!(check(&image), [0; 4]);
    }
}
