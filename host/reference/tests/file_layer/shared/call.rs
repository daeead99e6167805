//! Calls of a history: on an image, and in the model.

use super::answer::{self, Parts};
use reference::model::Model;
use reference::Reply;
use support::hex::from_hex;
use support::json::{Contents, Value};
use support::noise::noise;

/// A call with its arguments; a result buffer as it is lent.
#[derive(Clone, Debug)]
pub enum Call {
    Add {
        name: Vec<u8>,
        date: u32,
        data: Vec<u8>,
    },
    Remove {
        name: Vec<u8>,
    },
    Read {
        name: Vec<u8>,
        buffer: Vec<u8>,
    },
    List {
        buffer: Vec<u8>,
    },
    /// The items of a list, adds and removes, and bytes after the last of them.
    Batch {
        items: Vec<Call>,
        tail: Vec<u8>,
    },
}

/// Reply and, for list and read, the whole buffer afterwards.
pub type Answer = (Parts, Option<Vec<u8>>);

impl Call {
    /// The call of a case; panics if it is of another kind or has a member
    /// that is not known.
    pub fn from_json(call: &Value) -> Call {
        let name = |value: &Value| from_hex(value.text());
        match call.member("op").text() {
            "add" => {
                let [_, own, date, data] = call.members(["op", "name", "date", "data"]);
                let (seed, len) = pair(data);
                Call::Add {
                    name: name(own),
                    date: u32::try_from(date.number()).unwrap(),
                    data: noise(u32::try_from(seed).unwrap(), len),
                }
            }
            "remove" => {
                let [_, own] = call.members(["op", "name"]);
                Call::Remove { name: name(own) }
            }
            "read" => {
                let [_, own, lent] = call.members(["op", "name", "buffer"]);
                let (name, buffer) = (name(own), buffer(lent));
                Call::Read { name, buffer }
            }
            "list" => {
                let [_, lent] = call.members(["op", "buffer"]);
                Call::List {
                    buffer: buffer(lent),
                }
            }
            "batch" => {
                let [_, items, tail] = call.members(["op", "items", "tail"]);
                Call::Batch {
                    items: items.list().iter().map(Call::from_json).collect(),
                    tail: from_hex(tail.text()),
                }
            }
            op => panic!("call {op}"),
        }
    }

    /// The bytes of an add or remove as an item of a list (§8.18).
    pub fn item(&self) -> Vec<u8> {
        match self {
            Call::Add { name, date, data } => add_item(name, *date, data),
            Call::Remove { name } => remove_item(name),
            other => panic!("no item: {other:?}"),
        }
    }

    /// The answer that is given on an image.
    pub fn on_image(&self, image: &mut [u8]) -> Answer {
        match self {
            Call::Add { name, date, data } => (answer::add(image, name, *date, data), None),
            Call::Remove { name } => (answer::remove(image, name), None),
            Call::Read { name, buffer } => filled(answer::read(image, name, buffer)),
            Call::List { buffer } => filled(answer::list(image, buffer)),
            Call::Batch { items, tail } => (answer::batch(image, &list_of(items, tail)), None),
        }
    }

    /// The model's answer.
    pub fn in_model(&self, model: &mut Model) -> Answer {
        match self {
            Call::Add { name, date, data } => (model.add(name, *date, data).parts(), None),
            Call::Remove { name } => (model.remove(name).parts(), None),
            Call::Read { name, buffer } => lent(buffer, |out| model.read(name, out)),
            Call::List { buffer } => lent(buffer, |out| model.list(out)),
            Call::Batch { items, tail } => (model.batch(&list_of(items, tail)).parts(), None),
        }
    }
}

/// The bytes of these items in order, then these.
pub fn list_of(items: &[Call], tail: &[u8]) -> Vec<u8> {
    let mut list: Vec<u8> = items.iter().flat_map(Call::item).collect();
    list.extend(tail);
    list
}

/// The item that removes a file: its kind, the name's length, the name (§8.18).
pub fn remove_item(name: &[u8]) -> Vec<u8> {
    let len = u8::try_from(name.len()).expect("a name of a list");
    [&[1, len], name].concat()
}

/// The item that adds a file: after the name come its date and how many data
/// there are, each as a number of 32 bits, and then these (§8.18).
pub fn add_item(name: &[u8], date: u32, data: &[u8]) -> Vec<u8> {
    let len = u8::try_from(name.len()).expect("a name of a list");
    let data_len = u32::try_from(data.len()).expect("data of a list");
    let numbers = [date.to_be_bytes(), data_len.to_be_bytes()].concat();
    [&[2, len], name, &numbers, data].concat()
}

/// A number and a length.
fn pair(value: &Value) -> (u64, usize) {
    match value.list() {
        [number, len] => (number.number(), len.size()),
        _ => panic!("not a pair: {value:?}"),
    }
}

/// A buffer of equal bytes, as it is lent.
fn buffer(value: &Value) -> Vec<u8> {
    let (fill, len) = pair(value);
    vec![u8::try_from(fill).unwrap(); len]
}

fn filled((reply, buffer): (Parts, Vec<u8>)) -> Answer {
    (reply, Some(buffer))
}

/// The model's answer in a copy of the buffer.
fn lent(buffer: &[u8], call: impl FnOnce(&mut [u8]) -> Reply) -> Answer {
    let mut out = buffer.to_vec();
    let reply = call(&mut out).parts();
    (reply, Some(out))
}
