//! Random calls on block images, made by library and reference.

use super::bytes::{bytes, damage, len, name, spoil, Bytes, Damage, Name};
use super::images::{image, Image};
use super::Made;
use crate::file_layer::{add_item, both as files, remove_item, WRONG_ENDS};
use dhegluubin::FIRST_TRACK_LEN;
use proptest::collection::vec;
use proptest::prelude::*;
use proptest::sample::select;

/// A call with its arguments, but for the image.
#[derive(Clone, Debug)]
pub enum FileCall {
    Check,
    FirstTrack {
        len: usize,
    },
    List {
        buffer: Bytes,
    },
    Read {
        name: Name,
        buffer: Bytes,
    },
    Remove {
        name: Name,
    },
    Add {
        name: Name,
        date: u32,
        data: Bytes,
    },
    /// A list of items, what follows the last, and damage anywhere in it.
    Batch {
        items: Vec<Item>,
        end: Vec<u8>,
        damage: Vec<Damage>,
    },
    Format {
        name: Name,
        number: u16,
    },
    FormatBad {
        name: Name,
        number: u16,
        bad: Vec<u16>,
    },
}

/// An item of a batch.
#[derive(Clone, Debug)]
pub enum Item {
    Remove { name: Name },
    Add { name: Name, date: u32, data: Bytes },
}

/// Data of an add, mostly few.
fn data() -> impl Strategy<Value = Bytes> {
    bytes(prop_oneof![2 => 0..9000_usize, 1 => len()])
}

/// An add or a remove; few adds are of data that fill a disk.
fn item() -> impl Strategy<Value = Item> {
    let len = select(vec![0, 1, 1472, 1473, 5000, 5000, 90_000, 400_000]);
    prop_oneof![
        2 => name().prop_map(|name| Item::Remove { name }),
        3 => (name(), any::<u32>(), bytes(len))
            .prop_map(|(name, date, data)| Item::Add { name, date, data }),
    ]
}

/// A list of removes and adds, right or wrong, also with damage.
fn batch() -> impl Strategy<Value = FileCall> {
    let wrong = select(&WRONG_ENDS[..]).prop_map(<[u8]>::to_vec);
    let end = prop_oneof![
        9 => Just(Vec::new()),
        2 => wrong,
        1 => vec(any::<u8>(), 0..40),
    ];
    let damage = prop_oneof![3 => Just(Vec::new()), 1 => damage()];
    (vec(item(), 0..7), end, damage).prop_map(|(items, end, damage)| FileCall::Batch {
        items,
        end,
        damage,
    })
}

/// A format with a list of bad blocks; now and then some of it is any number.
fn format_bad() -> impl Strategy<Value = FileCall> {
    let wrong = prop_oneof![
        30 => 2..480_u16,
        1 => select(vec![0, 1, 480]),
        1 => any::<u16>(),
    ];
    let bad = prop_oneof![
        2 => vec(2..480_u16, 0..60),
        1 => vec(400..480_u16, 0..60),
        1 => vec(wrong, 0..60),
    ];
    (name(), any::<u16>(), bad).prop_map(|(name, number, bad)| FileCall::FormatBad {
        name,
        number,
        bad,
    })
}

fn format() -> impl Strategy<Value = FileCall> {
    (name(), any::<u16>()).prop_map(|(name, number)| FileCall::Format { name, number })
}

/// The image of a call, and the call.
pub fn file_call() -> impl Strategy<Value = (Image, FileCall)> {
    let track = prop_oneof![Just(FIRST_TRACK_LEN), len()];
    let call = prop_oneof![
        7 => Just(FileCall::Check),
        4 => track.prop_map(|len| FileCall::FirstTrack { len }),
        11 => bytes(len()).prop_map(|buffer| FileCall::List { buffer }),
        18 => (name(), bytes(len())).prop_map(|(name, buffer)| FileCall::Read { name, buffer }),
        10 => name().prop_map(|name| FileCall::Remove { name }),
        20 => (name(), any::<u32>(), data())
            .prop_map(|(name, date, data)| FileCall::Add { name, date, data }),
        7 => batch(),
        1 => format(),
        2 => format_bad(),
    ];
    (image(), call)
}

/// The bytes of a batch's list.
fn list_of(items: &[Item], end: &[u8], damage: &[Damage]) -> Vec<u8> {
    let bytes = |item: &Item| match item {
        Item::Remove { name } => remove_item(&name.0),
        Item::Add { name, date, data } => add_item(&name.0, *date, &data.made()),
    };
    let mut list: Vec<u8> = items.iter().flat_map(bytes).collect();
    list.extend(end);
    spoil(&mut list, damage);
    list
}

impl FileCall {
    /// Makes the call twice on an image of this disk, and compares; what an
    /// accepted one leaves is the next disk.
    pub fn make(&self, image: &Image, disk: &mut Vec<u8>) -> Made {
        let mut image = image.made(disk);
        let (call, reply) = self.on_image(&mut image);
        if reply == 0 && call != "first_track" {
            *disk = image;
        }
        (call, reply)
    }

    fn on_image(&self, image: &mut [u8]) -> Made {
        let (call, reply) = match self {
            FileCall::Check => ("check", files::check(image)),
            FileCall::FirstTrack { len } => {
                let track = &image[..*len.min(&image.len())];
                ("first_track", files::first_track(track).0)
            }
            FileCall::List { buffer } => ("list", files::list(image, &buffer.made()).0),
            FileCall::Read { name, buffer } => {
                ("read", files::read(image, &name.0, &buffer.made()).0)
            }
            FileCall::Remove { name } => ("remove", files::remove(image, &name.0)),
            FileCall::Add { name, date, data } => {
                ("add", files::add(image, &name.0, *date, &data.made()))
            }
            FileCall::Batch { items, end, damage } => {
                ("batch", files::batch(image, &list_of(items, end, damage)))
            }
            FileCall::Format { name, number } => ("format", files::format(image, &name.0, *number)),
            FileCall::FormatBad { name, number, bad } => {
                let reply = files::format_bad(image, &name.0, *number, bad);
                ("format_bad", reply)
            }
        };
        (call, reply[0])
    }
}
