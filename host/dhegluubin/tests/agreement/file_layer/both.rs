//! Calls made twice, by the library and by the reference. Replies, places
//! and every lent byte must be the same, a refusal changes nothing, and no
//! call changes what it may only read.

use super::program;
use crate::lent::Lent;
use dhegluubin::raw;

pub use support::cases::cases;

/// Number and places.
pub type Parts = [usize; 4];

/// A call that changes the image, unless its reply is one that keeps it.
fn compared(
    image: &mut [u8],
    keeps: impl FnOnce(Parts) -> bool,
    library: impl FnOnce(&mut [u8]) -> dhegluubin::Reply,
    reference: impl FnOnce(&mut [u8]) -> reference::Reply,
) -> Parts {
    let mut lent = Lent::new(image);
    let reply = library(lent.bytes()).parts();
    assert!(
        !keeps(reply) || lent.after() == image,
        "image changed by refusal {reply:?}"
    );
    let expected = reference(image).parts();
    assert_eq!(reply, expected, "library, then reference");
    assert!(lent.after() == image, "other image than the reference");
    reply
}

/// A call that changes the image where it is done.
fn on_image(
    image: &mut [u8],
    library: impl FnOnce(&mut [u8]) -> dhegluubin::Reply,
    reference: impl FnOnce(&mut [u8]) -> reference::Reply,
) -> Parts {
    compared(image, |[number, ..]| number != 0, library, reference)
}

/// A call that reads the image and writes to a buffer.
fn into_buffer(
    image: &[u8],
    buffer: &[u8],
    library: impl FnOnce(&[u8], &mut [u8]) -> dhegluubin::Reply,
    reference: impl FnOnce(&[u8], &mut [u8]) -> reference::Reply,
) -> (Parts, Vec<u8>) {
    let lent_image = image.to_vec();
    let mut lent = Lent::new(buffer);
    let reply = library(&lent_image, lent.bytes()).parts();
    assert!(lent_image == image, "image changed");
    assert!(
        reply[0] == 0 || lent.after() == buffer,
        "buffer changed by refusal {reply:?}"
    );
    let mut expected_buffer = buffer.to_vec();
    let expected = reference(image, &mut expected_buffer).parts();
    assert_eq!(reply, expected, "library, then reference");
    assert!(
        lent.after() == expected_buffer,
        "other buffer than the reference"
    );
    (reply, expected_buffer)
}

pub fn format(image: &mut [u8], name: &[u8], number: u16) -> Parts {
    on_image(
        image,
        |lent| raw::format(lent, name, number),
        |lent| reference::format(lent, name, number),
    )
}

pub fn format_bad(image: &mut [u8], name: &[u8], number: u16, bad: &[u16]) -> Parts {
    // What stands before and after the list would be refused if it were read.
    let around = [&[0], bad, &[0]].concat();
    let list = &around[1..=bad.len()];
    let reply = on_image(
        image,
        |lent| raw::format_bad(lent, name, number, list),
        |lent| reference::format_bad(lent, name, number, bad),
    );
    assert!(list == bad, "list changed");
    reply
}

pub fn add(image: &mut [u8], name: &[u8], date: u32, data: &[u8]) -> Parts {
    on_image(
        image,
        |lent| raw::add(lent, name, date, data),
        |lent| reference::add(lent, name, date, data),
    )
}

pub fn remove(image: &mut [u8], name: &[u8]) -> Parts {
    on_image(
        image,
        |lent| raw::remove(lent, name),
        |lent| reference::remove(lent, name),
    )
}

/// Of a batch the items before the refused one stand; a refusal of the first item
/// or of the whole call keeps the image.
pub fn batch(image: &mut [u8], list: &[u8]) -> Parts {
    let mut lent_list = Lent::new(list);
    let reply = compared(
        image,
        |[number, .., item]| number == 20 || (number != 0 && item < 2),
        |lent| raw::batch(lent, lent_list.bytes()),
        |lent| reference::batch(lent, list),
    );
    assert!(lent_list.after() == list, "list changed");
    reply
}

pub fn check(image: &[u8]) -> Parts {
    into_buffer(
        image,
        &[],
        |image, _| raw::check(image),
        |image, _| reference::check(image),
    )
    .0
}

pub fn list(image: &[u8], buffer: &[u8]) -> (Parts, Vec<u8>) {
    into_buffer(image, buffer, raw::list, reference::list)
}

pub fn read(image: &[u8], name: &[u8], buffer: &[u8]) -> (Parts, Vec<u8>) {
    into_buffer(
        image,
        buffer,
        |image, out| raw::read(image, name, out),
        |image, out| reference::read(image, name, out),
    )
}

/// Reply and counts for a first track, of which the program prints the same.
pub fn first_track(track: &[u8]) -> (Parts, [usize; 3]) {
    let lent = track.to_vec();
    let (reply, counts) = raw::first_track(&lent);
    assert!(lent == track, "track changed");
    let library = (reply.parts(), [counts.free, counts.good, counts.held]);
    let expected = reference::first_track(track);
    let counts = [expected.free, expected.good, expected.held];
    assert_eq!(
        library,
        (expected.reply.parts(), counts),
        "library, then reference"
    );
    program::printed(track);
    library
}

/// What the program prints of a first track.
pub fn first_track_text(track: &[u8]) -> String {
    program::printed(track)
}
