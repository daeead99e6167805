//! Calls of several threads at the same time, each on its own memory.

use dhegluubin::{raw, IMAGE_LEN};
use support::noise::noise;

/// A small history of the library and of the reference.
fn history(seed: u32) {
    let mut image = noise(seed, IMAGE_LEN);
    let mut expected = image.clone();
    raw::format(&mut image, b"THREAD", seed as u16);
    reference::format(&mut expected, b"THREAD", seed as u16);
    for index in 0..40u8 {
        let name = [index % 13];
        let data = noise(seed + u32::from(index), 50 * usize::from(index));
        let (reply, other) = if index % 3 == 2 {
            (
                raw::remove(&mut image, &name).parts(),
                reference::remove(&mut expected, &name).parts(),
            )
        } else {
            (
                raw::add(&mut image, &name, seed, &data).parts(),
                reference::add(&mut expected, &name, seed, &data).parts(),
            )
        };
        assert_eq!(reply, other, "seed {seed}, call {index}");
    }
    // Item 3 is refused.
    let list = b"\x02\x01z\0\0\0\x01\0\0\0\x02ab\x01\x01z\x01\x01z\x01\x01\0";
    let reply = raw::batch(&mut image, list).parts();
    assert_eq!(reply, reference::batch(&mut expected, list).parts());
    assert_eq!(reply, [14, 0, 0, 3], "seed {seed}");
    assert!(image == expected, "seed {seed}");
}

#[test]
fn each_on_its_own_memory() {
    std::thread::scope(|scope| {
        for seed in 0..8 {
            scope.spawn(move || history(seed));
        }
    });
}

#[test]
fn one_image_read_by_all() {
    let mut image = vec![0; IMAGE_LEN];
    raw::format(&mut image, b"SHARED", 1);
    raw::add(&mut image, b"file", 1, &[0x42; 5000]);
    std::thread::scope(|scope| {
        for _ in 0..8 {
            scope.spawn(|| {
                for _ in 0..20 {
                    let mut out = [0; 5000];
                    let reply = raw::read(&image, b"file", &mut out).parts();
                    assert_eq!(reply, [0, 5000, 0, 0]);
                    assert_eq!(out, [0x42; 5000]);
                    assert_eq!(raw::check(&image).parts(), [0; 4]);
                }
            });
        }
    });
}
