//! The model: what a history of calls must give, told from the arguments of
//! format and calls alone. It never looks at an image.
//!
//! It shares no decision with the calls on images but which names are equal,
//! and else only the layout of header, entry and record, how the list of a batch
//! is read and answered, and the numbers and the placement of the disk.

mod blocks;
mod image;

use crate::batch::in_turn;
use crate::geometry::BLOCK_LEN;
use crate::items::{items, Item};
use crate::layout::entry::{Entry, SLOT_LEN};
use crate::names::lowered;
use crate::reply::Reply;
use blocks::blocks_for;
use std::collections::BTreeSet;

/// Slots of the directory in a block.
const SLOTS_PER_BLOCK: usize = BLOCK_LEN / SLOT_LEN;

/// A file that is present (§9.6).
#[derive(Clone, Debug, PartialEq, Eq)]
pub struct File {
    /// Its name, as the add spelled it.
    pub name: Vec<u8>,
    /// Its date.
    pub date: u32,
    /// Its data, without the entry before them.
    pub data: Vec<u8>,
    /// Its blocks in sequence.
    pub blocks: Vec<usize>,
}

impl File {
    fn entry(&self) -> [u8; SLOT_LEN] {
        Entry::new(&self.name, self.date, self.data.len()).bytes()
    }
}

/// The state after a format and some calls, a history (§9.1): what the caller
/// gave, and never an image (§9.2).
#[derive(Clone, Debug, PartialEq, Eq)]
pub struct Model {
    name: Vec<u8>,
    number: u16,
    /// The different blocks in the format's list; there are B of them (§9.7).
    bad_blocks: BTreeSet<usize>,
    /// Slot 1 first; an empty slot is `None`.
    slots: Vec<Option<File>>,
    directory_blocks: Vec<usize>,
    /// The greatest number of files present at once, P (§9.6).
    most_present: usize,
    /// Accepted adds and removes, modulo 2^32.
    updates: u32,
}

fn refused(number: usize, place: usize) -> Reply {
    Reply::new(number, [place, 0, 0])
}

/// Lays a result over the start of a buffer (§8.8), or answers 16 (§7.16).
fn deliver(result: &[u8], buffer: &mut [u8]) -> Reply {
    match buffer.get_mut(..result.len()) {
        Some(start) => {
            start.copy_from_slice(result);
            Reply::new(0, [result.len(), 0, 0])
        }
        None => refused(16, result.len()),
    }
}

impl Model {
    /// The model of an accepted format without bad blocks (§9.2), or nothing for
    /// a name over 10 bytes.
    pub fn format(name: &[u8], number: u16) -> Option<Model> {
        Model::format_bad(name, number, &[])
    }

    /// The model of an accepted format (§9.2), or nothing for a name over 10
    /// bytes or a list in which a block is not 2 to 479.
    pub fn format_bad(name: &[u8], number: u16, bad: &[u16]) -> Option<Model> {
        let bad_blocks: BTreeSet<usize> = bad.iter().copied().map(usize::from).collect();
        let accepted = name.len() <= 10 && bad_blocks.iter().all(|block| (2..480).contains(block));
        accepted.then(|| Model {
            name: name.to_vec(),
            number,
            bad_blocks,
            slots: Vec::new(),
            directory_blocks: vec![1],
            most_present: 0,
            updates: 0,
        })
    }

    /// The files present (§9.6) with their slot numbers, in slot order.
    pub fn files(&self) -> impl Iterator<Item = (usize, &File)> {
        let slots = self.slots.iter().enumerate();
        slots.filter_map(|(index, slot)| slot.as_ref().map(|file| (index + 1, file)))
    }

    /// The free word (§9.7).
    pub fn free_word(&self) -> usize {
        let word = self.word(self.most_present, self.file_blocks());
        usize::try_from(word).expect("never below zero")
    }

    /// Adds a file: a slot is filled (§9.4); 15 is given by the free word that
    /// would be left (§9.7).
    pub fn add(&mut self, name: &[u8], date: u32, data: &[u8]) -> Reply {
        if name.is_empty() || name.len() > 36 {
            return refused(12, 0);
        }
        if let Some(slot) = self.slot_of(name) {
            return refused(13, slot);
        }
        let present = self.files().count() + 1;
        let most_present = self.most_present.max(present);
        let count = blocks_for(data.len());
        if self.word(most_present, self.file_blocks() + count) < 0 {
            return refused(15, 0);
        }
        let slot = self.open_slot();
        let blocks = self.lowest_free(count);
        self.slots[slot - 1] = Some(File {
            name: name.to_vec(),
            date,
            data: data.to_vec(),
            blocks,
        });
        self.most_present = most_present;
        self.updates = self.updates.wrapping_add(1);
        Reply::DONE
    }

    /// Removes a file: its slot is emptied (§9.4).
    pub fn remove(&mut self, name: &[u8]) -> Reply {
        match self.slot_of_name(name) {
            Ok(slot) => {
                self.slots[slot - 1] = None;
                self.updates = self.updates.wrapping_add(1);
                Reply::DONE
            }
            Err(reply) => reply,
        }
    }

    /// Makes the items of a list one by one, as adds and removes of their own: each
    /// that is accepted counts for the files present, the peak and the update
    /// count (§9.9). A wrong list leaves the model as it was.
    pub fn batch(&mut self, list: &[u8]) -> Reply {
        match items(list) {
            Ok(items) => in_turn(&items, |item| match *item {
                Item::Remove { name } => self.remove(name),
                Item::Add { name, date, data } => self.add(name, date, data),
            }),
            Err(refusal) => refusal.reply(),
        }
    }

    /// Reads a file (§9.3).
    pub fn read(&self, name: &[u8], buffer: &mut [u8]) -> Reply {
        match self.slot_of_name(name) {
            Ok(slot) => {
                let file = self.slots[slot - 1].as_ref();
                deliver(&file.expect("a filled slot").data, buffer)
            }
            Err(reply) => reply,
        }
    }

    /// Lists the files present (§9.3).
    pub fn list(&self, buffer: &mut [u8]) -> Reply {
        let entries: Vec<u8> = self.files().flat_map(|(_, file)| file.entry()).collect();
        deliver(&entries, buffer)
    }

    /// The slot of the file whose name is equal to this one (§6.14).
    fn slot_of(&self, name: &[u8]) -> Option<usize> {
        let wanted = lowered(name);
        let mut files = self.files();
        files
            .find(|(_, file)| lowered(&file.name) == wanted)
            .map(|(slot, _)| slot)
    }

    /// The same for a read or remove, which answer 12 or 14 without it.
    fn slot_of_name(&self, name: &[u8]) -> Result<usize, Reply> {
        if name.is_empty() || name.len() > 36 {
            return Err(refused(12, 0));
        }
        self.slot_of(name).ok_or(refused(14, 0))
    }
}
