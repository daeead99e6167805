//! Disks as real controllers leave them: free records whose tails, the two
//! bytes after FD, are anything.

use super::all_calls::{all_calls, judged};
use super::answer::{add, cases, check, first_track_text, list, read, remove};
use super::build::{
    count_free, entry, free_blocks, fresh, full_directory, long_directory, patch, peek, record,
    record_of, records, set_record, set_word, three_files, word, FREE,
};
use reference::geometry::{BLOCKS, TRACK_LEN};
use support::noise::{noise, Generator};

/// Sets the tail of a block's record.
fn set_tail(image: &mut [u8], block: usize, tail: [u8; 2]) {
    patch(image, 0, 96 + 3 * block + 1, &tail);
}

/// Gives the free records tails: FF FF, numbers of files that may be present,
/// or any.
pub fn random_tails(generator: &mut Generator, image: &mut [u8]) {
    for block in free_blocks(image) {
        let [_, second, third] = record(generator.below(26), generator.below(5));
        let tail = match generator.below(3) {
            0 => [0xFF; 2],
            1 => [second, third],
            _ => [generator.byte(), generator.byte()],
        };
        set_tail(image, block, tail);
    }
}

/// The image with FD FF FF in all free records.
fn without_tails(image: &[u8]) -> Vec<u8> {
    let mut plain = image.to_vec();
    for block in free_blocks(image) {
        set_record(&mut plain, block, FREE);
    }
    plain
}

/// A deleted file's records begin with FD and keep the other 16 bits. Its
/// blocks are free (§6.9) and counted (§6.4 §8.14), and no record bears its
/// number any more (§7.22).
#[test]
fn deleted_files_leave_their_numbers() {
    let mut image = three_files();
    // f2 has slot 2 and blocks 3 and 4.
    patch(
        &mut image,
        0,
        96 + 3 * 3,
        &[0xFD, 0x20, 0x00, 0xFD, 0x20, 0x01],
    );
    patch(&mut image, 1, 2 * 64, &[0; 64]);
    assert_eq!(check(&image), [11, 0, 0, 0]);
    assert_eq!(judged(&image), ([11, 0, 0, 0], [0; 3]));
    count_free(&mut image);
    assert_eq!(all_calls(&image, b"f3"), [0; 4]);
    assert_eq!(judged(&image), ([0; 4], [1419, 1440, 7]));
    assert_eq!(list(&image, &[0; 128]).0, [0, 128, 0, 0]);
    assert_eq!(read(&image, b"f2", &[]).0, [14, 0, 0, 0]);
    // The same number is given again, to the lowest free blocks.
    assert_eq!(add(&mut image, b"new", 0, &[7; 1400]), [0; 4]);
    assert_eq!(record_of(&image, 3), record(2, 0));
    assert_eq!(record_of(&image, 4), [0xFD, 0x20, 0x01]);
    assert_eq!(read(&image, b"new", &[0; 1400]).1, [7; 1400]);
    assert_eq!(all_calls(&image, b"new"), [0; 4]);
}

/// A tail that says a part of a file present adds nothing to that file (§6.10
/// §7.20), and a remove of the file does not touch it (§8.13).
#[test]
fn tails_of_files_that_are_present() {
    let mut image = three_files();
    for (index, (file, sequence)) in [(2, 0), (2, 1), (2, 2), (3, 3), (0, 0), (0, 1)]
        .into_iter()
        .enumerate()
    {
        let [_, second, third] = record(file, sequence);
        set_tail(&mut image, 20 + index, [second, third]);
        patch(&mut image, 20 + index, 0, &[0x66; 1536]);
    }
    assert_eq!(all_calls(&image, b"f2"), [0; 4]);
    assert_eq!(read(&image, b"f2", &[0; 1500]).1, [b'2'; 1500]);
    let before = records(&image);
    assert_eq!(remove(&mut image, b"f2"), [0; 4]);
    for (block, was) in before.into_iter().enumerate() {
        let expected = if [3, 4].contains(&block) {
            FREE.to_vec()
        } else {
            was
        };
        assert_eq!(record_of(&image, block), expected, "block {block}");
    }
    // A block whose tail names the removed file keeps its bytes.
    assert_eq!(peek(&image, 21, 0, 1536), [0x66; 1536]);
}

/// Blocks with each second byte of a tail are free (§6.9) and counted (§6.4),
/// where the word leaves them out refused (§7.11).
#[test]
fn many_tails() {
    let mut image = fresh();
    for second in 0..=255 {
        let block = [2, 138, 309, 479][usize::from(second) % 4];
        for third in [0x00, 0x01, 0x50, 0xFE, 0xFF] {
            set_tail(&mut image, block, [second, third]);
            assert_eq!(check(&image), [0; 4], "FD {second:02X} {third:02X}");
        }
        assert_eq!(judged(&image), ([0; 4], [1434, 1440, 2]));
    }
    // Blocks 2, 138 and 309 have other tails than FF FF now.
    for left_out in 1..=3 {
        set_word(&mut image, 20, 1434 - 3 * left_out);
        assert_eq!(all_calls(&image, b"x"), [11, 0, 0, 0]);
    }
}

/// Block 0 has the system's record alone: FD is 9 there (§7.9).
#[test]
fn never_at_block_0() {
    for tail in [[0xFF, 0xFF], [0, 0], [0x12, 0x34], [0xFF, 0xFE]] {
        let mut image = three_files();
        set_record(&mut image, 0, [0xFD, tail[0], tail[1]]);
        // With a free word that does not count block 0, and with one that does.
        for _ in 0..2 {
            assert_eq!(all_calls(&image, b"f2"), [9, 0, 0, 0]);
            assert_eq!(judged(&image), ([9, 0, 0, 0], [0; 3]));
            assert_eq!(first_track_text(&image[..TRACK_LEN]), "refused 9\n");
            count_free(&mut image);
        }
    }
}

/// An add takes the lowest free blocks, whatever their tails (§8.11), and
/// leaves every other record byte for byte (§8.12).
#[test]
fn adds_take_the_lowest_and_leave_the_others() {
    let mut generator = Generator::new(5);
    let mut image = three_files();
    random_tails(&mut generator, &mut image);
    for (index, len) in [0, 1472, 1473, 5000, 40_000, 600_000]
        .into_iter()
        .enumerate()
    {
        let mut expected = records(&image);
        let count = (64 + len as usize).div_ceil(1536);
        for (sequence, block) in free_blocks(&image).into_iter().take(count).enumerate() {
            expected[block] = record(4 + index, sequence).to_vec();
        }
        let name = [b'n', b'0' + index as u8];
        assert_eq!(add(&mut image, &name, 3, &noise(len, len as usize)), [0; 4]);
        assert_eq!(records(&image), expected, "{len} bytes");
    }
    assert_eq!(check(&image), [0; 4]);
}

/// The directory's new block is the lowest free one, whatever its tail
/// (§8.10), before those of the file.
#[test]
fn directory_grows_into_a_block_with_a_tail() {
    let mut image = full_directory();
    random_tails(&mut Generator::new(6), &mut image);
    // Tails: sequence 1 of file 0, sequences 0 and 1 of file 24 (018 hex).
    for (block, tail) in [(2, [0x00, 0x01]), (3, [0x80, 0x00]), (4, [0x80, 0x01])] {
        set_tail(&mut image, block, tail);
    }
    let mut expected = records(&image);
    expected[2] = record(0, 1).to_vec();
    expected[3] = record(24, 0).to_vec();
    expected[4] = record(24, 1).to_vec();
    assert_eq!(add(&mut image, b"new", 0, &[1; 1500]), [0; 4]);
    assert_eq!(records(&image), expected);
    assert_eq!((word(&image, 34), word(&image, 36)), (1, 64));
    assert_eq!(all_calls(&image, b"new"), [0; 4]);
}

/// So it is where the directory's first block is not block 1 (§8.10).
#[test]
fn directory_grows_into_block_1() {
    let mut image = full_directory();
    let slots = peek(&image, 1, 0, 1536);
    patch(&mut image, 400, 0, &slots);
    set_record(&mut image, 400, record(0, 0));
    set_record(&mut image, 1, [0xFD, 0x00, 0x00]);
    let mut expected = records(&image);
    expected[1] = record(0, 1).to_vec();
    expected[2] = record(24, 0).to_vec();
    assert_eq!(add(&mut image, b"new", 0, &[1; 1400]), [0; 4]);
    assert_eq!(records(&image), expected);
    assert_eq!(all_calls(&image, b"new"), [0; 4]);
}

/// Removes the files of `three_files`, whose blocks stand so many higher, and
/// asserts that no record but theirs changes.
fn assert_removed(image: &mut [u8], higher: usize) {
    let mut expected = records(image);
    for (name, blocks) in [(b"f3", 5..9), (b"f1", 2..3), (b"f2", 3..5)] {
        for block in blocks {
            expected[block + higher] = FREE.to_vec();
        }
        assert_eq!(remove(image, name), [0; 4]);
        assert_eq!(records(image), expected);
    }
}

/// What we free is FD FF FF (§6.9), whatever other free records are (§8.13).
#[test]
fn removes_leave_other_tails() {
    let mut image = three_files();
    random_tails(&mut Generator::new(7), &mut image);
    assert_removed(&mut image, 0);
    assert_eq!(all_calls(&image, b"f1"), [0; 4]);
    assert_eq!(judged(&image), ([0; 4], [1434, 1440, 2]));
}

/// A disk of tails is filled to its last block; more is refused with 15
/// (§7.15), and nothing changed.
#[test]
fn disks_of_tails_are_filled() {
    let mut image = fresh();
    for block in free_blocks(&image) {
        set_tail(&mut image, block, [0x01, block as u8]);
    }
    let all = 478 * 1536 - 64;
    let mut too_long = image.clone();
    assert_eq!(
        add(&mut too_long, b"long", 0, &vec![1; all + 1]),
        [15, 0, 0, 0]
    );
    assert!(too_long == image);
    assert_eq!(add(&mut image, b"all", 0, &vec![1; all]), [0; 4]);
    assert_eq!(judged(&image), ([0; 4], [0, 1440, 480]));
    assert_eq!(add(&mut image, b"more", 0, &[]), [15, 0, 0, 0]);
    assert_eq!(remove(&mut image, b"all"), [0; 4]);
    assert_eq!(judged(&image), ([0; 4], [1434, 1440, 2]));
    assert!((2..BLOCKS).all(|block| record_of(&image, block) == FREE));
}

/// `three_files` with its blocks 1 to 8 moved to 472 to 479 by another program:
/// the old ones are free, and their records keep the other 16 bits.
fn moved_up() -> Vec<u8> {
    let mut image = three_files();
    for block in 1..9 {
        let bytes = record_of(&image, block);
        let data = peek(&image, block, 0, 1536);
        patch(&mut image, 0, 96 + 3 * (471 + block), &bytes);
        patch(&mut image, 471 + block, 0, &data);
        patch(&mut image, 0, 96 + 3 * block, &[0xFD]);
        patch(&mut image, block, 0, &[0x66; 1536]);
    }
    image
}

/// Tails below the blocks of the files that they name say nothing either (§6.9
/// §6.10), that of block 1 too, and stay on a remove (§8.13).
#[test]
fn tails_below_the_files_that_they_name() {
    let mut image = moved_up();
    assert_eq!(all_calls(&image, b"f3"), [0; 4]);
    assert_eq!(judged(&image), ([0; 4], [1413, 1440, 9]));
    assert_eq!(list(&image, &[0; 192]), list(&three_files(), &[0; 192]));
    assert_eq!(read(&image, b"f3", &[0; 5000]).1, [b'3'; 5000]);
    assert_removed(&mut image, 471);
    assert_eq!(peek(&image, 1, 0, 1536), [0x66; 1536]);
}

/// No record bears a file number of FD0 to FDF (hex), where the first byte
/// would be FD: a slot with such a number has no block (§7.22).
#[test]
fn free_records_bear_no_file_number() {
    let mut image = long_directory(170);
    set_tail(&mut image, 479, [0x20, 0x00]);
    assert_eq!(all_calls(&image, b"x"), [0; 4]);
    let slot = 0xFD2;
    patch(
        &mut image,
        1 + slot / 24,
        64 * (slot % 24),
        &entry(64, 1, b"x"),
    );
    assert_eq!(all_calls(&image, b"x"), [10, slot, 0, 0]);
}

/// A name that may be present, or one that is refused with 12.
fn some_name(generator: &mut Generator) -> Vec<u8> {
    match generator.below(8) {
        0 => vec![],
        1 => vec![b'f'; 37],
        _ => vec![b'f', b'0' + generator.below(6) as u8],
    }
}

/// Whether a call may have changed a record so: not at all, from free to a
/// file's, or from a file's to FD FF FF.
fn may_become(was: &[u8], is: &[u8]) -> bool {
    let (given, freed) = (was[0] == 0xFD && is[0] < 0xF8, was[0] < 0xF8 && is == FREE);
    was == is || given || freed
}

/// No answer depends on a tail: calls on disks that differ in tails alone give
/// the same, refused ones too, and leave disks that differ in tails alone
/// (§6.9 by *tails_unread*).
#[test]
fn calls_do_not_read_tails() {
    let mut generator = Generator::new(77);
    for case in 0..cases(10) {
        println!("case {case}");
        let mut image = if case % 2 == 0 {
            three_files()
        } else {
            moved_up()
        };
        random_tails(&mut generator, &mut image);
        let mut plain = without_tails(&image);
        for _ in 0..16 {
            let before = records(&image);
            let name = some_name(&mut generator);
            let data = noise(case, generator.below(9000));
            let (one, other) = match generator.below(5) {
                0..=1 => (
                    add(&mut image, &name, 1, &data),
                    add(&mut plain, &name, 1, &data),
                ),
                2 => (remove(&mut image, &name), remove(&mut plain, &name)),
                _ => (check(&image), check(&plain)),
            };
            assert_eq!(one, other);
            assert_eq!(read(&image, &name, &data), read(&plain, &name, &data));
            assert_eq!(list(&image, &[9; 400]), list(&plain, &[9; 400]));
            assert_eq!(judged(&image), judged(&plain));
            assert!(without_tails(&image) == plain);
            for (was, is) in before.iter().zip(records(&image)) {
                assert!(may_become(was, &is), "{was:02X?} became {is:02X?}");
            }
        }
    }
}
