//! Format: names, numbers and old contents.

use super::answer::{check, format};
use super::build::peek;
use reference::geometry::IMAGE_LEN;
use reference::model::Model;
use support::noise::noise;

/// A disk that is formatted over old bytes.
fn formatted(name: &[u8], number: u16) -> Vec<u8> {
    let mut image = noise(3, IMAGE_LEN);
    assert_eq!(format(&mut image, name, number), [0; 4]);
    image
}

/// All bytes of the header (§6.1 §6.2 §6.5 §6.7),
/// with the tables of side and place (§1.4) and backward (§1.6).
#[test]
fn header_byte_by_byte() {
    let image = formatted(b"AMIS", 0x1234);
    let mut header = b"QL5AAMIS      ".to_vec();
    header.extend([0x12, 0x34, 0, 0, 0, 0]);
    for word in [1434u16, 1440, 1440, 9, 18, 80, 3, 0, 64, 5] {
        header.extend(word.to_be_bytes());
    }
    header.extend([0x00, 0x03, 0x06, 0x80, 0x83, 0x86, 0x01, 0x04, 0x07]);
    header.extend([0x81, 0x84, 0x87, 0x02, 0x05, 0x08, 0x82, 0x85, 0x88]);
    header.extend([0x00, 0x06, 0x0C, 0x01, 0x07, 0x0D, 0x02, 0x08, 0x0E]);
    header.extend([0x03, 0x09, 0x0F, 0x04, 0x0A, 0x10, 0x05, 0x0B, 0x11]);
    header.extend([0xFF; 20]);
    assert_eq!(header.len(), 96);
    assert_eq!(image[..96], header);
}

/// The map of a fresh disk, and zero in all other bytes (§8.4).
#[test]
fn map_and_zero_bytes() {
    let image = formatted(b"DISK", 0);
    let mut map = vec![0xF8, 0, 0, 0, 0, 0];
    for _ in 2..480 {
        map.extend([0xFD, 0xFF, 0xFF]);
    }
    assert_eq!(peek(&image, 0, 96, 1440), map);
    for block in 1..480 {
        assert!(peek(&image, block, 0, 1536).iter().all(|&byte| byte == 0));
    }
}

/// A disk's name has 0 to 10 bytes (§6.15 §7.12), filled with spaces (§6.2).
#[test]
fn names_of_up_to_ten_bytes() {
    for len in 0..=12 {
        let mut image = noise(len as u32, IMAGE_LEN);
        let name = &b"NAME OF 12 B"[..len];
        let reply = format(&mut image, name, 300 * len as u16);
        if len > 10 {
            assert_eq!(reply, [12, 0, 0, 0]);
            continue;
        }
        assert_eq!(reply, [0; 4]);
        let mut field = name.to_vec();
        field.resize(10, b' ');
        assert_eq!(image[4..14], field);
        let model = Model::format(name, 300 * len as u16).unwrap();
        assert!(image == model.image());
        assert_eq!(check(&image), [0; 4]);
    }
}

/// A disk's name keeps its bytes, capitals too (§6.2).
#[test]
fn names_in_capitals() {
    for name in [b"REEL@one", b"reel@ONE", b"reel`one"] {
        let image = formatted(name, 7);
        assert_eq!(image[4..14], *[&name[..], b"  "].concat());
        assert!(image == Model::format(name, 7).unwrap().image());
    }
}

/// The number of the disk (§6.2).
#[test]
fn numbers() {
    for number in [0, 1, 0xFF, 0x100, 0x1234, 0xFFFF] {
        let mut image = vec![0xE5; IMAGE_LEN];
        assert_eq!(format(&mut image, b"DISK", number), [0; 4]);
        assert_eq!(peek(&image, 0, 14, 2), number.to_be_bytes());
        // What the image held before does not matter.
        assert!(image == formatted(b"DISK", number));
    }
}

/// A refusal changes no byte (§7.19).
#[test]
fn refusals_change_nothing() {
    for (image_len, name_len, expected) in [
        (IMAGE_LEN, 11, [12, 0, 0, 0]),
        (IMAGE_LEN, 256, [12, 0, 0, 0]),
        (IMAGE_LEN, 300_000, [12, 0, 0, 0]),
        (IMAGE_LEN - 1, 4, [1, 2, 0, 0]),
        (IMAGE_LEN + 1, 4, [1, 2, 0, 0]),
        (2 * IMAGE_LEN, 4, [1, 2, 0, 0]),
        (0, 11, [1, 2, 0, 0]),
        (0, 0, [1, 2, 0, 0]),
    ] {
        let mut image = noise(4, image_len);
        let reply = format(&mut image, &vec![b'x'; name_len], 5);
        assert_eq!(reply, expected);
    }
}
