//! Every call on one image.

use super::answer::{add, batch, check, first_track, list, read, remove, Parts};
use super::call::{add_item, remove_item};
use reference::geometry::TRACK_LEN;

/// Makes every call on the image, add and remove on copies of it, and gives
/// what check says. What check refuses, list, read, add and remove refuse
/// alike: they judge the same first. So does a batch at its first item; without
/// one it judges the length alone.
pub fn all_calls(image: &[u8], name: &[u8]) -> Parts {
    let checked = check(image);
    first_track(&image[..image.len().min(TRACK_LEN)]);
    let replies = [
        into_buffers(|buffer| list(image, buffer)),
        into_buffers(|buffer| read(image, name, buffer)),
        add(&mut image.to_vec(), b"new file", 0x0A0B_0C0D, &[0x3C; 3000]),
        add(&mut image.to_vec(), name, 1, &[]),
        remove(&mut image.to_vec(), name),
    ];
    let items = [remove_item(name), add_item(b"new file", 1, &[0x3C; 3000])];
    let batched = [&items.concat()[..], &[]].map(|list| batch(&mut image.to_vec(), list));
    match checked {
        [0, ..] => assert_eq!(batched[1], [0; 4]),
        [1, ..] => assert_eq!((replies, batched), ([checked; 5], [checked; 2])),
        [number, first, ..] => {
            assert_eq!(replies, [checked; 5]);
            assert_eq!(batched, [[number, first, 0, 1], [0; 4]]);
        }
    }
    checked
}

/// Reply and counts for the first track of an image.
pub fn judged(image: &[u8]) -> (Parts, [usize; 3]) {
    first_track(&image[..TRACK_LEN])
}

/// The reply with a short buffer. Where it is too short one that is exactly
/// as long as needed is tried, and one with a byte less.
fn into_buffers(call: impl Fn(&[u8]) -> (Parts, Vec<u8>)) -> Parts {
    let (reply, _) = call(&[0xAA; 100]);
    if reply[0] == 16 {
        let needed = reply[1];
        assert_eq!(call(&vec![0xAB; needed]).0, [0, needed, 0, 0]);
        assert_eq!(call(&vec![0xAC; needed - 1]).0, reply);
    }
    reply
}
