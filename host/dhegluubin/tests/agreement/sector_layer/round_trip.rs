//! Whole disks written, compared byte by byte, and read back.

use super::both::{assert_unpacks, pack_into, unpack};
use super::build::{disk, packed, pattern};
use dhegluubin::{HFE_LEN, IMAGE_LEN};
use support::cases::cases;
use support::noise::noise;

/// Packs with both, and unpacks what was written.
fn there_and_back(image: &[u8]) {
    let (reply, packed) = pack_into(image, &noise(8, HFE_LEN));
    let mut hfe = vec![0; HFE_LEN];
    assert_eq!(reply, reference::pack(image, &mut hfe).parts());
    assert!(packed == hfe, "other bytes than the reference");
    assert_unpacks(&packed, image);
}

/// All bytes of written images: cells (§3.1 §3.3 §3.4), CRC (§3.8), sectors,
/// sides and image (§5.1 §5.2 §5.3 §5.4 §5.5).
/// Unpacked they give the same block image (§8.2).
#[test]
fn random_images() {
    for seed in 0..cases(4) {
        println!("seed {seed}");
        there_and_back(&noise(seed, IMAGE_LEN));
    }
}

#[test]
fn images_of_one_byte() {
    for byte in [0x00, 0xA1, 0xFF] {
        println!("byte {byte:02X}");
        there_and_back(&vec![byte; IMAGE_LEN]);
    }
}

/// A mark has a clock cell left out, an equal byte of data has not (§3.5).
#[test]
fn images_of_marks() {
    // Data bytes A1 have all their clocks and are no sync bytes.
    let header = [0xA1, 0xA1, 0xA1, 0xFE, 0, 0, 1, 2, 0xCA, 0x6F];
    let image: Vec<u8> = header.iter().copied().cycle().take(IMAGE_LEN).collect();
    there_and_back(&image);
}

#[test]
fn reference_reads_the_same() {
    assert_eq!(unpack(&packed()), [0; 4]);
    assert!(disk() != pattern());
}
