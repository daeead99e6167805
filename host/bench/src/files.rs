//! Calls on full disks: one of 459 files of one block each, and one whose
//! only file has 734,144 bytes. Files are read, added and removed as the last.

use crate::measure::{Row, Runs};
use dhegluubin::{raw, ENTRY_LEN, IMAGE_LEN};
use std::time::Duration;
use support::noise::noise;

/// Files of one block each that fill a disk.
const FILES: usize = 459;

/// Data of the one file that fills a disk.
const LONGEST: usize = 734_144;

const LIMIT: Duration = Duration::from_millis(20);

/// A full disk.
struct Full {
    about: &'static str,
    files: usize,
    /// Name and data of the last file.
    name: Vec<u8>,
    data: Vec<u8>,
    /// The disk before that was added.
    before: Vec<u8>,
    image: Vec<u8>,
}

impl Full {
    /// A disk with so many files of this length.
    fn new(about: &'static str, files: usize, length: usize) -> Full {
        let mut before = Vec::new();
        let mut image = vec![0; IMAGE_LEN];
        assert_eq!(reference::format(&mut image, b"BENCH", 1).number, 0);
        let (mut name, mut data) = (Vec::new(), Vec::new());
        for index in 0..files {
            before.clone_from(&image);
            name = format!("file {index} of a full disk").into_bytes();
            data = noise(index as u32, length);
            assert_eq!(reference::add(&mut image, &name, 1, &data).number, 0);
        }
        Full {
            about,
            files,
            name,
            data,
            before,
            image,
        }
    }

    fn called(&self, call: &str) -> String {
        format!("{call}, {}", self.about)
    }

    fn reading(&self, runs: Runs) -> Vec<Row> {
        let Full { name, image, .. } = self;
        vec![
            Row::measured(
                runs,
                &self.called("check"),
                LIMIT,
                &(),
                |_| raw::check(image).number == 0,
                |_| reference::check(image).number == 0,
            ),
            Row::measured(
                runs,
                &self.called("list"),
                LIMIT,
                &vec![0x55; ENTRY_LEN * self.files],
                |lent| raw::list(image, lent).number == 0,
                |lent| reference::list(image, lent).number == 0,
            ),
            Row::measured(
                runs,
                &self.called("read"),
                LIMIT,
                &vec![0x55; self.data.len()],
                |lent| raw::read(image, name, lent).number == 0,
                |lent| reference::read(image, name, lent).number == 0,
            ),
        ]
    }

    fn changing(&self, runs: Runs) -> Vec<Row> {
        let Full { name, data, .. } = self;
        vec![
            Row::measured(
                runs,
                &self.called("add"),
                LIMIT,
                &self.before,
                |lent| raw::add(lent, name, 1, data).number == 0,
                |lent| reference::add(lent, name, 1, data).number == 0,
            ),
            Row::measured(
                runs,
                &self.called("remove"),
                LIMIT,
                &self.image,
                |lent| raw::remove(lent, name).number == 0,
                |lent| reference::remove(lent, name).number == 0,
            ),
        ]
    }
}

fn format(runs: Runs) -> Row {
    Row::measured(
        runs,
        "format",
        LIMIT,
        &vec![0x55; IMAGE_LEN],
        |lent| raw::format(lent, b"BENCH", 1).number == 0,
        |lent| reference::format(lent, b"BENCH", 1).number == 0,
    )
}

pub fn rows(runs: Runs) -> Vec<Row> {
    let mut rows = vec![format(runs)];
    for disk in [
        Full::new("459 files", FILES, 1472),
        Full::new("one long file", 1, LONGEST),
    ] {
        rows.extend(disk.reading(runs));
        rows.extend(disk.changing(runs));
    }
    rows
}
