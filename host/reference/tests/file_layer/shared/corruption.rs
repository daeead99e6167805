//! Disks with random faults, and images of random bytes.

use super::all_calls::all_calls;
use super::answer::cases;
use super::bad_blocks::{random_bad, random_list};
use super::build::{
    count_free, count_good, fresh_bad, patch, record, scattered, set_record, set_word, three_files,
    BAD, FREE,
};
use reference::geometry::IMAGE_LEN;
use std::collections::BTreeMap;
use support::noise::{noise, Generator};

/// The name of a file, in one of its spellings.
fn name(generator: &mut Generator, index: usize) -> [u8; 2] {
    [*generator.choice(b"fF"), index as u8]
}

/// A disk with some files, some of them removed again, and with bad blocks.
fn random_disk(generator: &mut Generator) -> Vec<u8> {
    let made = match generator.below(4) {
        0 => Some(three_files()),
        1 => Some(scattered()),
        _ => None,
    };
    if let Some(mut image) = made {
        random_bad(generator, &mut image);
        return image;
    }
    let mut image = fresh_bad(&random_list(generator, 60));
    for index in 0..generator.below(30) {
        let name = name(generator, index);
        let data = noise(index as u32, generator.below(6000));
        reference::add(&mut image, &name, 1, &data);
    }
    for _ in 0..generator.below(5) {
        let index = generator.below(30);
        reference::remove(&mut image, &name(generator, index));
    }
    image
}

/// Changes header, map or a slot somewhere.
fn corrupt(generator: &mut Generator, image: &mut [u8]) {
    let block = generator.below(40) * (1 + 11 * generator.below(2));
    let slot = 64 * generator.below(24);
    match generator.below(16) {
        0 => image[generator.below(96)] ^= 1 << generator.below(8),
        1 => set_word(image, 34, generator.below(4)),
        2 => set_word(image, 36, 64 * generator.below(26)),
        3 => set_record(image, block, FREE),
        4 => {
            let bytes = [generator.byte(), generator.byte(), generator.byte()];
            set_record(image, block, bytes);
        }
        5..=7 => {
            let (file, sequence) = (generator.below(26), generator.below(5));
            set_record(image, block, record(file, sequence));
        }
        8 => patch(image, 1, slot + generator.below(64), &[generator.byte()]),
        9 => patch(image, 1, slot, &[0; 64]),
        10 => {
            let len = generator.below(5000) as u32;
            patch(image, 1, slot, &len.to_be_bytes());
        }
        11 => patch(image, 1, slot + 14, &[0, generator.below(40) as u8]),
        12 => set_record(image, block, [0xFD, generator.byte(), generator.byte()]),
        13 => set_record(image, block, BAD),
        14 => set_record(image, block, [0xFE, *generator.choice(&[0, 0xFF]), 0xFF]),
        _ => {
            let index = generator.below(30);
            patch(image, 1, slot + 16, &name(generator, index));
        }
    }
}

#[test]
fn random_faults() {
    let mut generator = Generator::new(91);
    let mut numbers = BTreeMap::new();
    let usual = 250;
    let runs = cases(usual);
    for case in 0..runs {
        let mut image = random_disk(&mut generator);
        for _ in 0..generator.below(4) {
            corrupt(&mut generator, &mut image);
        }
        match generator.below(8) {
            0 => set_word(&mut image, 20, generator.below(1500)),
            1 => (),
            _ => count_free(&mut image),
        }
        match generator.below(8) {
            0 => set_word(&mut image, 22, 3 * generator.below(481)),
            1 => (),
            _ => count_good(&mut image),
        }
        let index = generator.below(20);
        let name = name(&mut generator, index);
        println!("case {case}");
        let [number, ..] = all_calls(&image, &name);
        *numbers.entry(number).or_insert(0) += 1;
    }
    println!("numbers given: {numbers:?}");
    // Few cases need not give all that check can give of an image.
    let all = [0, 8, 9, 10, 11, 19];
    assert!(runs < usual || all.iter().all(|number| numbers.contains_key(number)));
}

#[test]
fn random_images() {
    for case in 0..cases(20) {
        let mut image = noise(case, IMAGE_LEN);
        assert_eq!(all_calls(&image, b"f1"), [8, 0, 0, 0]);
        // A good header, then a good map as well.
        image[..96].copy_from_slice(&three_files()[..96]);
        all_calls(&image, b"f1");
        for block in 0..480 {
            let bytes = if block == 0 {
                [0xF8, 0, 0]
            } else if block % 7 == 6 {
                BAD
            } else {
                FREE
            };
            set_record(&mut image, block, bytes);
        }
        set_record(&mut image, 1 + case as usize, record(0, 0));
        count_free(&mut image);
        count_good(&mut image);
        all_calls(&image, b"f1");
    }
}
