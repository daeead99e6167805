//! The directory grows over 24 and 48 slots, and slots and blocks are used
//! again.

use super::answer::{list, read};
use super::disk::Disk;
use support::noise::noise;

fn name(index: usize) -> Vec<u8> {
    format!("name {index}").into_bytes()
}

/// Data of the file with this index, of 1 to 3 blocks.
fn data(index: usize) -> Vec<u8> {
    noise(index as u32, index * 137 % 4400)
}

/// Slots of 64 bytes, 24 in a block (§6.11);
/// the image is the model's after each call (§9.5).
#[test]
fn over_24_and_48_and_again() {
    let mut disk = Disk::fresh();
    for index in 0..75 {
        assert_eq!(disk.add(&name(index), &data(index)), [0; 4]);
        assert_eq!(disk.slots(), index + 2);
        if [22, 23, 24, 46, 47, 48, 70, 71, 72].contains(&index) {
            disk.assert_is_the_models();
        }
    }
    // Every third file goes, and others take their slots and blocks.
    for index in (0..75).step_by(3) {
        assert_eq!(disk.remove(&name(index)), [0; 4]);
    }
    disk.assert_is_the_models();
    for index in 100..125 {
        assert_eq!(disk.add(&name(index), &data(index)), [0; 4]);
    }
    assert_eq!(disk.slots(), 76);
    disk.assert_is_the_models();
    assert_eq!(disk.add(&name(200), &data(200)), [0; 4]);
    assert_eq!(disk.slots(), 77);

    let needed = 64 * 76;
    assert_eq!(list(&disk.image, &vec![1; needed]).0, [0, needed, 0, 0]);
    for (_, file) in disk.model.files() {
        let (reply, out) = read(&disk.image, &file.name, &vec![0; file.data.len()]);
        assert_eq!(reply, [0, file.data.len(), 0, 0]);
        assert!(out == file.data);
    }
    // All go, from the last line to the first.
    let mut present: Vec<Vec<u8>> = disk.model.files().map(|(_, f)| f.name.clone()).collect();
    present.reverse();
    for name in present {
        assert_eq!(disk.remove(&name), [0; 4]);
    }
    disk.assert_is_the_models();
    assert_eq!(disk.slots(), 77);
    assert_eq!(list(&disk.image, &[]).0, [0; 4]);
}
