//! The safe calls: results and named refusals.

use super::shared::build::{patch, set_record, set_word, three_files};
use dhegluubin::{
    add, batch, check, first_track, format, format_bad, list, raw, read, remove, BatchList,
    BatchRefusal, FirstTrack, Lent, Refusal, FIRST_TRACK_LEN, IMAGE_LEN,
};
use support::noise::noise;

#[test]
fn done() {
    let mut image = vec![0xE5; IMAGE_LEN];
    assert_eq!(format(&mut image, b"DISK", 7), Ok(()));
    assert_eq!(check(&image), Ok(()));
    assert_eq!(add(&mut image, b"file", 3, b"data"), Ok(()));
    assert_eq!(list(&image, &mut [0; 64]), Ok(64));
    let mut out = [0; 10];
    assert_eq!(read(&image, b"file", &mut out), Ok(4));
    assert_eq!(&out, b"data\0\0\0\0\0\0");
    let counts = FirstTrack {
        free: 1431,
        good: 1440,
        held: 3,
    };
    assert_eq!(first_track(&image[..FIRST_TRACK_LEN]), Ok(counts));
    assert_eq!(remove(&mut image, b"file"), Ok(()));
}

#[test]
fn done_with_bad_blocks() {
    let mut image = vec![0xE5; IMAGE_LEN];
    assert_eq!(format_bad(&mut image, b"DISK", 7, &[18, 17, 18]), Ok(()));
    assert_eq!(check(&image), Ok(()));
    let counts = FirstTrack {
        free: 1428,
        good: 1434,
        held: 4,
    };
    assert_eq!(first_track(&image[..FIRST_TRACK_LEN]), Ok(counts));
}

#[test]
fn wrong_lengths() {
    let refusal = Refusal::Length { lent: Lent::Blocks };
    assert_eq!(format(&mut [], b"DISK", 7), Err(refusal));
    assert_eq!(format_bad(&mut [], b"DISK", 7, &[0]), Err(refusal));
    assert_eq!(check(&[]), Err(refusal));
    assert_eq!(list(&[], &mut []), Err(refusal));
    assert_eq!(read(&[], b"", &mut []), Err(refusal));
    assert_eq!(add(&mut [], b"", 0, &[]), Err(refusal));
    assert_eq!(remove(&mut [], b""), Err(refusal));
    let whole = BatchRefusal {
        item: None,
        refusal,
    };
    assert_eq!(batch(&mut [], &BatchList::new()), Err(whole));
    assert_eq!(first_track(&[]), Err(refusal));
}

#[test]
fn wrong_disks() {
    let mut image = three_files();
    set_word(&mut image, 20, 0);
    assert_eq!(check(&image), Err(Refusal::FreeWord));
    patch(&mut image, 1, 64, &[0; 64]);
    assert_eq!(check(&image), Err(Refusal::Directory { file: 1 }));
    set_word(&mut image, 22, 1437);
    assert_eq!(check(&image), Err(Refusal::GoodWord));
    let track = &image[..FIRST_TRACK_LEN];
    assert_eq!(first_track(track), Err(Refusal::GoodWord));
    set_record(&mut image, 9, [0xFF; 3]);
    assert_eq!(check(&image), Err(Refusal::MapRecord { block: 9 }));
    let track = &image[..FIRST_TRACK_LEN];
    assert_eq!(first_track(track), Err(Refusal::MapRecord { block: 9 }));
    set_word(&mut image, 28, 0);
    assert_eq!(check(&image), Err(Refusal::DiskHeader { offset: 28 }));
}

#[test]
fn own_refusals() {
    let mut image = three_files();
    assert_eq!(format(&mut image, &[b'x'; 11], 7), Err(Refusal::Argument));
    for bad in [0, 1, 480, 65_535] {
        let refused = format_bad(&mut image, b"DISK", 7, &[17, bad]);
        assert_eq!(refused, Err(Refusal::Argument));
    }
    assert_eq!(read(&image, b"", &mut []), Err(Refusal::Argument));
    let present = Err(Refusal::NamePresent { slot: 3 });
    assert_eq!(add(&mut image, b"f3", 0, &[]), present);
    assert_eq!(add(&mut image, b"F3", 0, &[]), present);
    assert_eq!(remove(&mut image, b"f4"), Err(Refusal::NoSuchName));
    let long = vec![0; IMAGE_LEN];
    assert_eq!(add(&mut image, b"f4", 0, &long), Err(Refusal::TooFewBlocks));
    let short = Err(Refusal::BufferTooShort { needed: 1500 });
    assert_eq!(read(&image, b"f2", &mut [0; 10]), short);
    assert!(image == three_files());
}

/// The refusal of an item, and how many before it stand.
fn refused_at(item: usize, refusal: Refusal) -> BatchRefusal {
    let item = Some(item);
    BatchRefusal { item, refusal }
}

#[test]
fn batches() {
    let mut image = three_files();
    let mut list = BatchList::new();
    list.remove(b"F1").add(b"f4", 3, b"data").remove(b"f2");
    assert_eq!(batch(&mut image, &list), Ok(()));
    let mut expected = three_files();
    remove(&mut expected, b"f1").unwrap();
    add(&mut expected, b"f4", 3, b"data").unwrap();
    remove(&mut expected, b"f2").unwrap();
    assert!(image == expected);

    let mut list = BatchList::new();
    list.remove(b"f4").add(b"F3", 0, &[]).remove(b"f3");
    let refused = batch(&mut image, &list).unwrap_err();
    let present = Refusal::NamePresent { slot: 3 };
    assert_eq!(refused, refused_at(2, present));
    assert_eq!(refused.accepted(), 1);
    assert_eq!(remove(&mut expected, b"f4"), Ok(()));
    assert!(image == expected);

    set_word(&mut image, 28, 0);
    let header = Refusal::DiskHeader { offset: 28 };
    assert_eq!(batch(&mut image, &list), Err(refused_at(1, header)));
    assert_eq!(batch(&mut image, &BatchList::new()), Ok(()));
}

/// Bytes that are no list (§7.27).
#[test]
fn wrong_lists() {
    let mut image = three_files();
    for (list, item) in [(&b"\x03"[..], 1), (b"\x01\x02f1\x02", 2)] {
        let refused = raw::batch(&mut image, list).batch_result();
        assert_eq!(refused, Err(refused_at(item, Refusal::WrongItem { item })));
        assert_eq!(refused.unwrap_err().accepted(), 0);
    }
    assert!(image == three_files());
}

/// A listed item is answered as its single call, also where a list has no room
/// for all of its name or data (§8.18 §8.19).
#[test]
fn listed_items_of_any_length() {
    let data = noise(3, 2 * IMAGE_LEN);
    let room = 734_144 - 1536 * 7;
    let names = [0, 1, 36, 37, 255, 256, 257, 292, 293, 65_537].map(|len| vec![b'n'; len]);
    let lens = [0, room, room + 1, IMAGE_LEN, IMAGE_LEN + 1, 2 * IMAGE_LEN];
    let calls = names.iter().map(|name| (name, 0));
    let present = b"f2".to_vec();
    let of_data = lens
        .iter()
        .flat_map(|&len| [(&names[1], len), (&present, len)]);
    for (name, len) in calls.chain(of_data) {
        let (mut image, mut expected) = (three_files(), three_files());
        let added = add(&mut expected, name, 7, &data[..len]);
        let mut list = BatchList::new();
        list.add(name, 7, &data[..len]);
        let batched = batch(&mut image, &list).map_err(|refused| refused.refusal);
        assert_eq!(batched, added, "{} and {len} bytes", name.len());
        let removed = remove(&mut expected, name);
        let mut list = BatchList::new();
        list.remove(name);
        let batched = batch(&mut image, &list).map_err(|refused| refused.refusal);
        assert_eq!(batched, removed, "{} bytes", name.len());
        assert!(image == expected);
    }
}
