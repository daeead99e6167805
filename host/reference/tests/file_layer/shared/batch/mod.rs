//! Removes and adds in one call: how its list is read, what a refused item
//! tells, and whole sessions against the single calls.

mod items;
mod lists;
mod sessions;

use super::answer::{add, batch, remove, Parts};
use super::call::{list_of, Call};
use support::noise::{noise, Generator};

/// Ends of lists that are wrong items: of other kinds, or cut (§7.27).
pub const WRONG_ENDS: [&[u8]; 10] = [
    &[0],
    &[3],
    &[255, 1, b'a'],
    &[1],
    &[2],
    &[1, 2, b'a'],
    &[2, 1, b'a'],
    &[2, 1, b'a', 0, 0, 0, 0, 0, 0, 0],
    &[2, 1, b'a', 0, 0, 0, 0, 0, 0, 0, 1],
    &[2, 1, b'a', 0, 0, 0, 0, 0xFF, 0xFF, 0xFF, 0xFF, 1, 1, b'a'],
];

/// A reply with the number of an item as its third place.
fn at_item([number, first, second, _]: Parts, item: usize) -> Parts {
    [number, first, second, item]
}

/// Makes the calls of these items, each by itself, until one is refused (§8.19).
fn one_by_one(image: &mut [u8], items: &[Call]) -> Parts {
    for (number, item) in (1..).zip(items) {
        let reply = match item {
            Call::Add { name, date, data } => add(image, name, *date, data),
            Call::Remove { name } => remove(image, name),
            other => panic!("no item: {other:?}"),
        };
        if reply[0] != 0 {
            return at_item(reply, number);
        }
    }
    [0; 4]
}

/// Makes a batch of these items, which gives reply and image of the single
/// calls, and gives the reply.
fn as_one_by_one(image: &mut [u8], items: &[Call]) -> Parts {
    let mut expected = image.to_vec();
    let reply = batch(image, &list_of(items, &[]));
    assert_eq!(
        reply,
        one_by_one(&mut expected, items),
        "calls on the right"
    );
    assert!(image == expected, "another image than after the calls");
    reply
}

/// The item that adds a file.
fn adding(name: &[u8], data: &[u8]) -> Call {
    Call::Add {
        name: name.to_vec(),
        date: 0x0102_0304,
        data: data.to_vec(),
    }
}

/// The item that removes a file.
fn removing(name: &[u8]) -> Call {
    Call::Remove {
        name: name.to_vec(),
    }
}

/// A name, most often of a file that may be there, in either spelling (§6.14); now
/// and then one that is empty or too long (§6.15).
fn random_name(generator: &mut Generator) -> Vec<u8> {
    match generator.below(24) {
        0 => Vec::new(),
        1 => vec![b'n'; *generator.choice(&[36, 37, 255])],
        _ => vec![*generator.choice(b"fF"), *generator.choice(b"12345678")],
    }
}

/// An add or a remove; few adds are of data that fill a disk.
fn random_item(generator: &mut Generator) -> Call {
    let name = random_name(generator);
    if generator.below(5) < 2 {
        return Call::Remove { name };
    }
    let len = *generator.choice(&[0, 1, 1472, 1473, 5000, 5000, 90_000, 400_000]);
    Call::Add {
        name,
        date: generator.below(1 << 24) as u32 * 251,
        data: noise(generator.below(1 << 24) as u32, len),
    }
}

/// What follows the last item of a list: most often nothing, and one time of so
/// many what makes the list wrong.
pub fn random_tail(generator: &mut Generator, times: usize) -> Vec<u8> {
    match generator.below(times) {
        0 => generator.choice(&WRONG_ENDS).to_vec(),
        _ => Vec::new(),
    }
}

/// Up to so many items, and what follows the last.
pub fn random_batch(generator: &mut Generator, most: usize) -> (Vec<Call>, Vec<u8>) {
    let count = generator.below(most + 1);
    let items = (0..count).map(|_| random_item(generator)).collect();
    (items, random_tail(generator, 6))
}
