//! Which file names are equal, and which spelling a disk keeps.

use super::answer::{add, check, list, read, remove};
use super::build::{entry, fresh, named_files};
use super::disk::Disk;

/// The letters whose case does not count, in pairs.
const CAPITALS: &[u8; 26] = b"ABCDEFGHIJKLMNOPQRSTUVWXYZ";
const SMALL: &[u8; 26] = b"abcdefghijklmnopqrstuvwxyz";

/// Whether names of one byte each are equal.
fn are_equal(one: u8, other: u8) -> bool {
    let mut pairs = CAPITALS.iter().zip(SMALL);
    one == other || pairs.any(|(&a, &b)| (one, other) == (a, b) || (one, other) == (b, a))
}

/// All bytes but these.
fn bytes_but(left_out: &[u8]) -> Vec<u8> {
    (0..=255).filter(|byte| !left_out.contains(byte)).collect()
}

/// Every byte as a name, against every other: it finds the file of an equal
/// name (§6.14), and an add of it is refused with that file's slot (§7.13). A
/// disk has all names in capitals, another all in small letters; none of them
/// is that of a lower slot (§7.21).
#[test]
fn every_byte_against_all_others() {
    for left_out in [CAPITALS, SMALL] {
        let stored = bytes_but(left_out);
        assert_eq!(stored.len(), 230);
        let names: Vec<&[u8]> = stored.chunks(1).collect();
        let mut image = named_files(&names);
        assert_eq!(check(&image), [0; 4]);
        for byte in 0..=255 {
            let mut equal = (1..).zip(&stored).filter(|(_, &own)| are_equal(own, byte));
            let (slot, &own) = equal.next().unwrap();
            assert_eq!(equal.next(), None);
            assert_eq!(read(&image, &[byte], &[0]), ([0, 1, 0, 0], vec![own]));
            assert_eq!(add(&mut image, &[byte], 0, &[]), [13, slot, 0, 0]);
        }
    }
}

/// Two names of one byte on a disk: those that differ by 20 (hex) are equal if
/// they are a letter's capital and small form, and no others (§6.14 §7.21).
#[test]
fn bytes_that_differ_by_20_hex() {
    let mut equal = 0;
    for byte in 0..=255u8 {
        let others = [
            byte ^ 0x20,
            byte.wrapping_add(0x20),
            byte.wrapping_sub(0x20),
        ];
        for other in others {
            let (expected, count) = match are_equal(byte, other) {
                true => ([10, 2, 0, 0], 1),
                false => ([0; 4], 0),
            };
            let image = named_files(&[&[byte], &[other]]);
            assert_eq!(check(&image), expected, "{byte:02X} and {other:02X}");
            equal += count;
        }
    }
    // Each letter by two of the three ways.
    assert_eq!(equal, 2 * 52);
}

/// Every capital and every small letter, as names on one disk: they are equal
/// if they are the same letter (§6.14 §7.21).
#[test]
fn capitals_against_small_letters() {
    for capital in CAPITALS.chunks(1) {
        for small in SMALL.chunks(1) {
            let expected = match are_equal(capital[0], small[0]) {
                true => [10, 2, 0, 0],
                false => [0; 4],
            };
            for names in [[capital, small], [small, capital]] {
                assert_eq!(check(&named_files(&names)), expected, "{names:?}");
            }
        }
    }
}

/// Bytes next to the letters are different names, in longer names too; so are
/// C1 and E1 (hex), letters in other character sets (§6.14).
#[test]
fn bytes_next_to_the_letters() {
    for (one, other) in [
        (b'@', b'`'),
        (b'[', b'{'),
        (b'\\', b'|'),
        (b']', b'}'),
        (b'^', b'~'),
        (b'_', 0x7F),
        (0xC1, 0xE1),
    ] {
        let names = [[b'R', one, b'x'], [b'r', other, b'X']];
        let mut disk = Disk::fresh();
        for (index, name) in names.iter().enumerate() {
            assert_eq!(disk.add(name, &name[..]), [0; 4]);
            assert_eq!(disk.add(name, &[]), [13, index + 1, 0, 0]);
        }
        for name in names {
            assert_eq!(read(&disk.image, &name, &[0; 3]).1, name);
        }
        assert_eq!(disk.remove(&[b'R', other, b'x']), [0; 4]);
        assert_eq!(disk.remove(&[b'r', other, b'X']), [14, 0, 0, 0]);
        disk.assert_is_the_models();
    }
}

/// Names of different lengths are not equal (§6.14): what no file has is
/// refused with 14 (§7.14), and can be added.
#[test]
fn names_of_different_lengths() {
    let mut disk = Disk::fresh();
    assert_eq!(disk.add(b"F1", b"data"), [0; 4]);
    for name in [&b"f"[..], b"f1\0", b"f1 ", b"1", b"F11", b"\0f1"] {
        assert_eq!(read(&disk.image, name, &[]).0, [14, 0, 0, 0]);
        assert_eq!(disk.remove(name), [14, 0, 0, 0]);
        assert_eq!(disk.add(name, name), [0; 4]);
    }
    assert_eq!(disk.add(b"F1\0", &[]), [13, 3, 0, 0]);
    disk.assert_is_the_models();
}

/// Each of the 36 bytes of a name counts, and at each a capital letter counts
/// as its small one (§6.14), by a search and by check (§7.21).
#[test]
fn each_of_36_bytes() {
    let small = [b'n'; 36];
    for place in 0..36 {
        let mut capital = small;
        capital[place] = b'N';
        let mut other = small;
        other[place] = b'.';
        assert_eq!(check(&named_files(&[&capital, &small])), [10, 2, 0, 0]);
        assert_eq!(check(&named_files(&[&capital, &other])), [0; 4]);
        let mut image = fresh();
        assert_eq!(add(&mut image, &capital, 0, b"data"), [0; 4]);
        assert_eq!(add(&mut image, &small, 0, &[]), [13, 1, 0, 0]);
        assert_eq!(add(&mut image, &other, 0, &[]), [0; 4]);
        let (reply, data) = read(&image, &small, &[0; 4]);
        assert_eq!((reply, data), ([0, 4, 0, 0], b"data".to_vec()));
        assert_eq!(remove(&mut image, &small), [0; 4]);
        assert_eq!(remove(&mut image, &capital), [14, 0, 0, 0]);
    }
}

/// The entries of files without data, as the disk adds them.
fn entries(names: &[&[u8]]) -> Vec<u8> {
    let mut entries = Vec::new();
    for name in names {
        let mut slot = entry(64, name.len() as u16, name);
        slot[55] = 5;
        entries.extend(slot);
    }
    entries
}

/// Asserts that the disk and its model list exactly these names.
fn assert_lists(disk: &Disk, names: &[&[u8]]) {
    let expected = entries(names);
    let len = expected.len();
    let mut out = vec![0; len];
    assert_eq!(disk.model.list(&mut out).parts(), [0, len, 0, 0]);
    assert_eq!(out, expected);
    let (reply, listed) = list(&disk.image, &vec![0; len]);
    assert_eq!((reply, listed), ([0, len, 0, 0], expected));
    disk.assert_is_the_models();
}

/// An add in another spelling is refused with the slot (§7.13) and changes no
/// byte (§7.19): a list has the spelling of the first add (§8.6).
#[test]
fn refused_add_keeps_the_spelling() {
    let mut disk = Disk::fresh();
    assert_eq!(disk.add(b"boot", &[]), [0; 4]);
    assert_eq!(disk.add(b"Reel_one", &[]), [0; 4]);
    let before = disk.image.clone();
    for name in [b"REEL_ONE", b"reel_one", b"rEEL_oNE", b"Reel_one"] {
        assert_eq!(disk.add(name, &[]), [13, 2, 0, 0]);
        assert!(disk.image == before);
    }
    assert_lists(&disk, &[b"boot", b"Reel_one"]);
}

/// A remove finds a file by any spelling of its name (§8.13 §6.14); a new file
/// of that name has the spelling of its own add (§8.9).
#[test]
fn removed_by_another_spelling_and_added_anew() {
    let mut disk = Disk::fresh();
    assert_eq!(disk.add(b"Reel_one", &[]), [0; 4]);
    assert_eq!(disk.add(b"boot", &[]), [0; 4]);
    for spelling in [b"REEL_ONE", b"reel_ONE", b"reel_one"] {
        assert_eq!(disk.remove(b"rEEL_oNE"), [0; 4]);
        for name in [&spelling[..], b"Reel_one"] {
            assert_eq!(disk.remove(name), [14, 0, 0, 0]);
        }
        assert_eq!(disk.add(spelling, &[]), [0; 4]);
        assert_lists(&disk, &[spelling, b"boot"]);
    }
}
