//! Whole sessions in one call, on an image and in the model, and random lists
//! against the single calls.

use super::super::answer::{batch, cases, check, list, read};
use super::super::bad_blocks::random_bad;
use super::super::build::{fresh, full_directory, peek, scattered, three_files};
use super::super::call::{list_of, Call};
use super::super::disk::Disk;
use super::super::free_tails::random_tails;
use super::{adding, as_one_by_one, random_batch, removing};
use std::collections::BTreeMap;
use support::noise::{noise, Generator};

fn name(index: usize) -> Vec<u8> {
    format!("cue_{index:02}").into_bytes()
}

/// Makes a batch on image and model, which gives reply and image of the single
/// calls and of the model.
fn on_both(disk: &mut Disk, items: &[Call]) -> [usize; 4] {
    let reply = as_one_by_one(&mut disk.image, items);
    let expected = disk.model.batch(&list_of(items, &[])).parts();
    assert_eq!(reply, expected, "image, then model");
    disk.assert_is_the_models();
    reply
}

/// 24 files that come and go in one batch leave a directory of 25 slots in two
/// blocks: its items count for the peak (§9.9 §9.6).
#[test]
fn twenty_four_files_and_none() {
    let mut disk = Disk::fresh();
    let adds = (0..24).map(|index| adding(&name(index), &[]));
    let removes = (0..24).map(|index| removing(&name(index)));
    let items: Vec<Call> = adds.chain(removes).collect();
    assert_eq!(on_both(&mut disk, &items), [0; 4]);
    assert_eq!((disk.free(), disk.slots()), (1431, 25));
    assert_eq!(peek(&disk.image, 0, 16, 4), [0, 0, 0, 48]);
    // With 23 the directory stays in its block.
    let mut disk = Disk::fresh();
    assert_eq!(on_both(&mut disk, &items[..23]), [0; 4]);
    assert_eq!(on_both(&mut disk, &items[24..47]), [0; 4]);
    assert_eq!((disk.free(), disk.slots()), (1434, 24));
}

/// The peak is that of the items that were accepted, one by one: files that are
/// not there at once do not count together, nor those after a refusal (§9.9).
#[test]
fn peak_by_items() {
    let mut disk = Disk::fresh();
    let items: Vec<Call> = (0..30)
        .flat_map(|index| [adding(&name(index), &[1; 1500]), removing(&name(index))])
        .collect();
    assert_eq!(on_both(&mut disk, &items), [0; 4]);
    assert_eq!((disk.free(), disk.slots()), (1434, 2));
    let mut items: Vec<Call> = (0..30).map(|index| adding(&name(index), &[])).collect();
    items.insert(20, removing(b"none"));
    assert_eq!(on_both(&mut disk, &items), [14, 0, 0, 21]);
    assert_eq!((disk.free(), disk.slots()), (1434 - 60, 21));
}

/// Dozens of cue files are saved anew: all removed and added with other data, in
/// one call (§8.19).
#[test]
fn dozens_of_cue_files() {
    let data = |index: usize, save: u32| noise(save, index * 331 % 5000);
    let mut disk = Disk::fresh();
    let adds = |save| (0..60).map(move |index| adding(&name(index), &data(index, save)));
    let first: Vec<Call> = adds(1).collect();
    assert_eq!(on_both(&mut disk, &first), [0; 4]);
    let removes = (0..60).map(|index| removing(&name(index)));
    let next: Vec<Call> = removes.chain(adds(2)).collect();
    assert_eq!(on_both(&mut disk, &next), [0; 4]);
    // One by one, each file in the slot that it had.
    let third: Vec<Call> = (0..60)
        .flat_map(|index| {
            [
                removing(&name(index)),
                adding(&name(index), &data(index, 3)),
            ]
        })
        .collect();
    assert_eq!(on_both(&mut disk, &third), [0; 4]);
    assert_eq!(disk.slots(), 61);
    assert_eq!(list(&disk.image, &[0; 64 * 60]).0, [0, 64 * 60, 0, 0]);
    for index in 0..60 {
        let expected = data(index, 3);
        let (reply, out) = read(&disk.image, &name(index), &vec![0; expected.len()]);
        assert_eq!((reply, out), ([0, expected.len(), 0, 0], expected));
    }
}

/// A disk is filled by one batch, and the next item is refused with 15 by the
/// free word (§7.15 §9.7).
#[test]
fn full_disks() {
    let mut disk = Disk::fresh();
    let items: Vec<Call> = (0..460)
        .map(|index| adding(format!("file{index}").as_bytes(), &[]))
        .collect();
    assert_eq!(on_both(&mut disk, &items), [15, 0, 0, 460]);
    assert_eq!((disk.free(), disk.slots()), (0, 460));
    let items = [removing(b"file100"), adding(b"next", &[1; 1472])];
    assert_eq!(on_both(&mut disk, &items), [0; 4]);
    let all: Vec<Call> = (0..460)
        .filter(|&index| index != 100 && index != 459)
        .map(|index| removing(format!("FILE{index}").as_bytes()))
        .chain([removing(b"next"), removing(b"next")])
        .collect();
    assert_eq!(on_both(&mut disk, &all), [14, 0, 0, 460]);
    assert_eq!((disk.free(), disk.slots()), (3 * (479 - 20), 460));
}

/// A disk of some kind: fresh, with files, of another maker, with other tails or
/// with bad blocks; now and then with one byte of header, map or directory spoilt.
fn random_disk(generator: &mut Generator) -> Vec<u8> {
    let mut image = match generator.below(4) {
        0 => fresh(),
        1 => three_files(),
        2 => scattered(),
        _ => full_directory(),
    };
    match generator.below(4) {
        0 => random_tails(generator, &mut image),
        1 => random_bad(generator, &mut image),
        _ => (),
    }
    if generator.below(8) == 0 {
        let place = *generator.choice(&[1, 21, 23, 25, 96, 99, 5000]);
        image[place + generator.below(2)] ^= 1 << generator.below(8);
    }
    image
}

/// Random lists give reply and every byte of the image that the single calls
/// give, up to the first refusal (§8.19); wrong ones change nothing (§7.27).
#[test]
fn random_lists() {
    let mut generator = Generator::new(77);
    let usual = 60;
    let runs = cases(usual);
    let mut numbers = BTreeMap::new();
    for case in 0..runs {
        println!("case {case}");
        let mut image = random_disk(&mut generator);
        let checked = check(&image);
        for _ in 0..4 {
            let (items, tail) = random_batch(&mut generator, 12);
            let [number, .., third] = match tail.as_slice() {
                [] => as_one_by_one(&mut image, &items),
                tail => {
                    let before = image.clone();
                    let reply = batch(&mut image, &list_of(&items, tail));
                    assert_eq!(reply, [20, 0, 0, items.len() + 1]);
                    assert!(image == before, "changed by {reply:?}");
                    reply
                }
            };
            let most = numbers.entry(number).or_insert(0);
            *most = third.max(*most);
        }
        assert_eq!(check(&image), checked);
    }
    println!("numbers, each with its last item: {numbers:?}");
    if runs >= usual {
        // Refusals of the disk are at the first item, the others at later ones too.
        let of_disk = [8, 9, 10, 11, 19].map(|number| numbers.get(&number));
        assert!(of_disk.into_iter().flatten().sum::<usize>() > 1);
        for number in [12, 13, 14, 15, 20] {
            assert!(numbers.get(&number).is_some_and(|&item| item > 1));
        }
    }
}
