//! Old bytes: none is left by format, and none of a file by remove.

use super::answer::{add, format, remove};
use super::build::{fresh, patch, record_of, FREE};
use reference::geometry::IMAGE_LEN;
use reference::model::Model;

/// A byte that stands nowhere on a disk without files.
const SECRET: u8 = 0xEE;

fn secrets(image: &[u8]) -> usize {
    image.iter().filter(|&&byte| byte == SECRET).count()
}

/// Fills every free block, and the unused end of the directory's.
fn hide_secrets(image: &mut [u8]) {
    for block in 1..480 {
        if record_of(image, block) == FREE {
            patch(image, block, 0, &[SECRET; 1536]);
        }
    }
    patch(image, 1, 64 * 8, &[SECRET; 1536 - 64 * 8]);
}

/// A format leaves no old byte (§8.4).
#[test]
fn none_after_format() {
    assert_eq!(secrets(&fresh()), 0);
    // A disk all of secrets.
    let mut image = vec![SECRET; IMAGE_LEN];
    assert_eq!(format(&mut image, b"NEXT", 2), [0; 4]);
    assert_eq!(secrets(&image), 0);

    // A disk with files, and secrets in all that is free.
    let mut image = fresh();
    for name in [b"a", b"b", b"c"] {
        assert_eq!(add(&mut image, name, 1, &[SECRET; 10_000]), [0; 4]);
    }
    hide_secrets(&mut image);
    assert!(secrets(&image) > IMAGE_LEN - 5000);
    assert_eq!(format(&mut image, b"NEXT", 2), [0; 4]);
    assert_eq!(secrets(&image), 0);
    assert!(image == Model::format(b"NEXT", 2).unwrap().image());
}

/// No byte of a removed file is left: name, date and data (§9.8).
#[test]
fn none_after_remove() {
    let mut image = fresh();
    let lens = [0, 1, 1471, 1472, 1473, 3008, 3009, 30_000];
    // Names and dates are secret too.
    let date = u32::from_be_bytes([SECRET; 4]);
    for (index, &len) in lens.iter().enumerate() {
        let name = vec![SECRET; 1 + index];
        assert_eq!(add(&mut image, &name, date, &vec![SECRET; len]), [0; 4]);
    }
    assert!(secrets(&image) > lens.iter().sum());
    for index in [3, 0, 7, 1, 6, 2, 5, 4] {
        let before = secrets(&image);
        assert_eq!(remove(&mut image, &vec![SECRET; 1 + index]), [0; 4]);
        // Data, and twice the name and the date.
        let own = lens[index] + 2 * (1 + index) + 2 * 4;
        assert_eq!(secrets(&image), before - own);
    }
    assert_eq!(secrets(&image), 0);
    // Nor anything else: the disk is as fresh, but for the update count and
    // the directory's nine slots.
    let mut expected = fresh();
    expected[19] = 16;
    expected[36..38].copy_from_slice(&[2, 64]);
    assert!(image == expected);
}

/// The same beside files that stay (§9.8).
#[test]
fn none_after_remove_beside_other_files() {
    let mut image = fresh();
    for index in 0..40u8 {
        let data = if index % 2 == 0 {
            vec![SECRET; 4000]
        } else {
            vec![0x11; 4000]
        };
        assert_eq!(add(&mut image, &[b'a', index], 1, &data), [0; 4]);
    }
    for index in (0..40).step_by(2) {
        assert_eq!(remove(&mut image, &[b'a', index]), [0; 4]);
    }
    assert_eq!(secrets(&image), 0);
}
