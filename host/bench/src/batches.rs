//! Many removes and adds in one call: against the reference, and against the
//! same single calls.

use crate::measure::{Row, Runs};
use dhegluubin::{raw, BatchList, IMAGE_LEN};
use std::time::Duration;
use support::noise::noise;

/// The limit of one call on files, for each item of a batch.
const LIMIT_PER_ITEM: Duration = Duration::from_millis(20);

/// A remove, or an add where there are data.
struct Item {
    name: Vec<u8>,
    data: Option<Vec<u8>>,
}

/// A disk, and what is to be done with it.
struct Session {
    about: &'static str,
    disk: Vec<u8>,
    items: Vec<Item>,
    list: BatchList,
}

fn name(index: usize) -> Vec<u8> {
    format!("cue {index} of a session").into_bytes()
}

fn removes(files: usize) -> impl Iterator<Item = Item> {
    (0..files).map(|index| Item {
        name: name(index),
        data: None,
    })
}

/// Files of one block each.
fn adds(files: usize, seed: u32) -> impl Iterator<Item = Item> {
    (0..files).map(move |index| Item {
        name: name(index),
        data: Some(noise(seed, 1472)),
    })
}

/// A disk with so many files.
fn disk(files: usize) -> Vec<u8> {
    let mut image = vec![0; IMAGE_LEN];
    assert_eq!(raw::format(&mut image, b"BENCH", 1).number, 0);
    for item in adds(files, 1) {
        assert!(item.call(&mut image), "the disk is full");
    }
    image
}

impl Item {
    /// The single call; whether it is done.
    fn call(&self, image: &mut [u8]) -> bool {
        let reply = match &self.data {
            Some(data) => raw::add(image, &self.name, 1, data),
            None => raw::remove(image, &self.name),
        };
        reply.number == 0
    }
}

impl Session {
    fn new(about: &'static str, files: usize, items: impl Iterator<Item = Item>) -> Session {
        let items: Vec<Item> = items.collect();
        let mut list = BatchList::new();
        for Item { name, data } in &items {
            match data {
                Some(data) => list.add(name, 1, data),
                None => list.remove(name),
            };
        }
        Session {
            about,
            disk: disk(files),
            items,
            list,
        }
    }

    fn batch(&self, image: &mut [u8]) -> bool {
        raw::batch(image, self.list.bytes()).number == 0
    }

    /// The library's batch and the reference's.
    fn against_reference(&self, runs: Runs) -> Row {
        let items = u32::try_from(self.items.len()).unwrap_or(u32::MAX);
        Row::measured(
            runs,
            &format!("batch, {items} items"),
            LIMIT_PER_ITEM * items,
            &self.disk,
            |lent| self.batch(lent),
            |lent| reference::batch(lent, self.list.bytes()).number == 0,
        )
    }

    /// The library's batch and its single calls.
    fn against_calls(&self, runs: Runs) -> Row {
        Row::measured(
            runs,
            self.about,
            None,
            &self.disk,
            |lent| self.batch(lent),
            |lent| self.items.iter().all(|item| item.call(lent)),
        )
    }
}

/// So many of a disk's files removed and added with other data.
fn saved(about: &'static str, files: usize, of: usize) -> Session {
    Session::new(about, of, removes(files).chain(adds(files, 2)))
}

pub fn rows(runs: Runs) -> Vec<Row> {
    vec![saved("", 60, 60).against_reference(runs)]
}

pub fn against_calls(runs: Runs) -> Vec<Row> {
    let sessions = [
        Session::new("1 add", 0, adds(1, 2)),
        Session::new("24 adds and 24 removes", 0, adds(24, 2).chain(removes(24))),
        saved("60 files saved anew", 60, 60),
        saved("60 of 459 files saved anew", 60, 459),
        Session::new("459 adds fill a disk", 0, adds(459, 2)),
    ];
    let rows = sessions.iter().map(|session| session.against_calls(runs));
    rows.collect()
}
