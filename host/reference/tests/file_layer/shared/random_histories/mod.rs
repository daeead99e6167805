//! Random histories: the calls on an image, the model, and the free word by
//! the files present (§9.7). One that fails is shown with few calls.

mod kinds;

use super::answer::{cases, Parts};
use super::call::Call;
use super::disk::Disk;
use kinds::{History, Kind, FEW, GROWING, LONG, MANY, REFUSED};
use reference::model::Model;
use std::cell::RefCell;
use std::collections::{BTreeMap, BTreeSet};
use support::property::assert_holds;

/// The single calls that a call comes to, each with the number of its reply: of
/// a batch the items that were tried, those before the refused one accepted; none
/// where its list is wrong (§9.9).
fn tried(call: &Call, [number, .., third]: Parts) -> Vec<(&Call, usize)> {
    let Call::Batch { items, tail } = call else {
        return vec![(call, number)];
    };
    assert_eq!(number == 20, !tail.is_empty());
    let (accepted, refused) = match number {
        0 => (items.len(), None),
        20 => (0, None),
        _ => (third - 1, Some((&items[third - 1], number))),
    };
    let accepted = items[..accepted].iter().map(|item| (item, 0));
    accepted.chain(refused).collect()
}

/// A file as it was added.
struct Added {
    name: Vec<u8>,
    date: u32,
    data: Vec<u8>,
}

/// The files that accepted calls leave, by their names in small letters
/// (§6.14), how many there were at most, and how many were added; and the bad
/// blocks of their disk.
#[derive(Default)]
struct Present {
    bad: BTreeSet<u16>,
    files: BTreeMap<Vec<u8>, Added>,
    most: usize,
    added: usize,
}

impl Present {
    fn file(&self, name: &[u8]) -> Option<&Added> {
        self.files.get(&name.to_ascii_lowercase())
    }

    /// Asserts that an add gives 13 if its name is that of a file present and
    /// not else, and that a remove or a read finds a file exactly then.
    /// Gives whether the file present has another spelling.
    fn judge(&self, call: &Call, number: usize) -> bool {
        let (name, found) = match call {
            Call::Add { name, .. } => (name, number == 13),
            Call::Remove { name } | Call::Read { name, .. } => (name, ![12, 14].contains(&number)),
            Call::List { .. } => return false,
            Call::Batch { .. } => panic!("a batch is judged by its items"),
        };
        let present = self.file(name);
        assert_eq!(found, present.is_some());
        present.is_some_and(|file| file.name != *name)
    }

    fn accept(&mut self, call: &Call) {
        match call.clone() {
            Call::Add { name, date, data } => {
                let key = name.to_ascii_lowercase();
                self.files.insert(key, Added { name, date, data });
                self.added += 1;
            }
            Call::Remove { name } => {
                self.files.remove(&name.to_ascii_lowercase());
            }
            _ => (),
        }
        self.most = self.most.max(self.files.len());
    }

    fn free_word(&self) -> usize {
        let blocks = self
            .files
            .values()
            .map(|file| (64 + file.data.len()).div_ceil(1536));
        let directory = 1 + self.most / 24;
        3 * (479 - self.bad.len() - directory - blocks.sum::<usize>())
    }

    fn assert_same_files(&self, model: &Model) {
        assert_eq!(model.files().count(), self.files.len());
        for (_, file) in model.files() {
            let added = self.file(&file.name).unwrap();
            assert_eq!((&file.name, file.date), (&added.name, added.date));
            assert!(file.data == added.data);
        }
    }
}

/// What the histories of a kind came to, all taken together.
#[derive(Default)]
struct Shown {
    /// Numbers of replies.
    numbers: BTreeSet<usize>,
    /// Most slots of a directory.
    slots: usize,
    /// Most adds of a history that took a slot for the second time or later.
    again: usize,
    /// Calls that named a file present by another spelling.
    respelled: usize,
    /// Calls on disks with bad blocks.
    beside_bad: usize,
    /// Items of batches that were accepted, and those that were refused.
    items: [usize; 2],
    /// Whether there were as many as usual.
    enough: bool,
}

impl Shown {
    /// Runs the usual number of histories, or as many as are asked for.
    fn of(kind: &'static Kind, usual: u32, seed: u8) -> Shown {
        let shown = RefCell::new(Shown::default());
        let runs = cases(usual);
        assert_holds(seed, runs, &kind.history(), |history| {
            shown.borrow_mut().run(history);
        });
        let enough = runs >= usual;
        Shown {
            enough,
            ..shown.into_inner()
        }
    }

    fn run(&mut self, history: &History) {
        let History {
            name, number, old, ..
        } = history;
        let mut disk = Disk::formatted_bad(name, *number, *old, &history.bad);
        let mut present = Present {
            bad: history.bad.iter().copied().collect(),
            ..Present::default()
        };
        for (index, call) in history.calls.iter().enumerate() {
            let answer = call.on_image(&mut disk.image);
            assert!(answer == call.in_model(&mut disk.model), "call {index}");
            self.numbers.insert(answer.0[0]);
            self.beside_bad += usize::from(!present.bad.is_empty());
            for (single, number) in tried(call, answer.0) {
                self.respelled += usize::from(present.judge(single, number));
                if number == 0 {
                    present.accept(single);
                }
                if matches!(call, Call::Batch { .. }) {
                    self.items[usize::from(number != 0)] += 1;
                }
            }
            assert_eq!(disk.free(), present.free_word());
            if index % 16 == 0 {
                disk.assert_is_the_models();
            }
        }
        disk.assert_is_the_models();
        present.assert_same_files(&disk.model);
        self.slots = self.slots.max(disk.slots());
        self.again = self.again.max(present.added - (disk.slots() - 1));
    }

    /// Asserts that these numbers were given, that a directory had so many
    /// blocks, that so many slots were taken again, that files were named by
    /// other spellings, that there were bad blocks and that items of batches were
    /// accepted and refused. Too few histories need not show all that.
    fn assert(&self, numbers: &[usize], blocks: usize, again: usize) {
        let Shown {
            slots,
            respelled,
            beside_bad,
            ..
        } = self;
        println!("{:?}, {slots} slots, {} again", self.numbers, self.again);
        println!("{respelled} calls by another spelling, {beside_bad} beside bad blocks");
        println!("{:?} items accepted and refused", self.items);
        if self.enough {
            assert!(numbers.iter().all(|number| self.numbers.contains(number)));
            assert!(slots.div_ceil(24) >= blocks);
            assert!(self.again >= again);
            assert!(*respelled >= 10);
            assert!(*beside_bad >= 10);
            assert!(self.items.iter().all(|&items| items >= 5));
        }
    }
}

/// The model answers lists and reads (§9.2 §9.3), adds and removes (§9.4) and
/// batches of them (§9.9) as the calls do.
#[test]
fn few_files() {
    Shown::of(&FEW, 6, 10).assert(&[0, 12, 13, 14, 16, 20], 1, 5);
}

/// Adds are refused with 15 where the free word says so (§9.7).
#[test]
fn long_files() {
    Shown::of(&LONG, 4, 11).assert(&[0, 12, 13, 14, 15, 16, 20], 1, 5);
}

/// Each file present has its entry and data (§9.6).
#[test]
fn growing_directory() {
    Shown::of(&GROWING, 3, 12).assert(&[0, 12, 13, 14, 16, 20], 3, 5);
}

#[test]
fn many_files() {
    Shown::of(&MANY, 2, 13).assert(&[0, 12, 13, 14, 15, 16, 20], 10, 1);
}

#[test]
fn mostly_refused() {
    Shown::of(&REFUSED, 4, 14).assert(&[0, 12, 13, 14, 16, 20], 1, 1);
}
