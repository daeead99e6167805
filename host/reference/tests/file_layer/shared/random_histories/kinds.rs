//! Kinds of random histories.

use super::super::batch::WRONG_ENDS;
use super::super::call::Call;
use proptest::collection::vec;
use proptest::prelude::*;
use proptest::sample::select;
use std::fmt;
use support::noise::noise;

/// What names begin with; these are equal (§6.14).
const SPELLINGS: [&str; 4] = ["name", "Name", "NAME", "nAmE"];

/// What a history is made of.
pub struct Kind {
    /// How many different names there are.
    names: usize,
    /// Data lengths are one of these or one less or more.
    lengths: &'static [usize],
    /// Of 100 calls, so many are adds and so many removes.
    adds: u32,
    removes: u32,
    /// How many calls there are on average.
    calls: usize,
    /// Most entries of the format's list of bad blocks.
    bad: usize,
}

/// Few files, all calls.
pub const FEW: Kind = Kind {
    names: 6,
    lengths: &[1, 100, 1472, 3008, 5000],
    adds: 40,
    removes: 20,
    calls: 60,
    bad: 2000,
};

/// The disk is full of long files.
pub const LONG: Kind = Kind {
    names: 12,
    lengths: &[1, 1472, 60_000, 150_000, 300_000],
    adds: 55,
    removes: 25,
    calls: 80,
    bad: 200,
};

/// The directory grows and its slots are used again.
pub const GROWING: Kind = Kind {
    names: 80,
    lengths: &[1, 1472],
    adds: 65,
    removes: 25,
    calls: 200,
    bad: 120,
};

/// Many files until the disk is full.
pub const MANY: Kind = Kind {
    names: 600,
    lengths: &[1, 1472, 1473, 3000],
    adds: 94,
    removes: 3,
    calls: 560,
    bad: 60,
};

/// Almost only removes and reads of what is not there.
pub const REFUSED: Kind = Kind {
    names: 4,
    lengths: &[500],
    adds: 15,
    removes: 45,
    calls: 40,
    bad: 20,
};

/// A format, over noise from a seed, and the calls that follow it.
#[derive(Clone)]
pub struct History {
    pub name: Vec<u8>,
    pub number: u16,
    pub old: u32,
    pub bad: Vec<u16>,
    pub calls: Vec<Call>,
}

impl fmt::Debug for History {
    /// A line for each call.
    fn fmt(&self, to: &mut fmt::Formatter) -> fmt::Result {
        let History { number, bad, .. } = self;
        let name = self.name.escape_ascii();
        write!(
            to,
            "format \"{name}\" {number} over {} bad {bad:?}",
            self.old
        )?;
        let mut calls = self.calls.iter();
        calls.try_for_each(|call| write!(to, "\n    {}", shown(call)))
    }
}

/// A call as text, with the first of long data.
fn shown(call: &Call) -> String {
    let text = |name: &[u8]| format!("\"{}\"", name.escape_ascii());
    let long = |bytes: &[u8]| format!("{} bytes {:?}", bytes.len(), &bytes[..bytes.len().min(4)]);
    match call {
        Call::Add { name, date, data } => format!("add {} {date} {}", text(name), long(data)),
        Call::Remove { name } => format!("remove {}", text(name)),
        Call::Read { name, buffer } => format!("read {} to {}", text(name), long(buffer)),
        Call::List { buffer } => format!("list to {}", long(buffer)),
        Call::Batch { items, tail } => {
            let items: Vec<String> = items.iter().map(shown).collect();
            format!("batch of {items:?}, then {tail:?}")
        }
    }
}

/// Seeds of noise.
fn seed() -> impl Strategy<Value = u32> {
    0..1_u32 << 24
}

impl Kind {
    /// A name of the kind, in one of its spellings; now and then one of a wrong
    /// or extreme length.
    fn name(&'static self) -> impl Strategy<Value = Vec<u8>> {
        let index = || 0..self.names;
        prop_oneof![
            37 => (index(), select(&SPELLINGS[..]))
                .prop_map(|(index, spelling)| format!("{spelling} {index}").into_bytes()),
            1 => Just(Vec::new()),
            1 => index().prop_map(|index| vec![b'n'; 37 + index]),
            1 => select(&b"aA@`"[..]).prop_map(|last| [&[b'n'; 35][..], &[last]].concat()),
        ]
    }

    /// A buffer of a fitting length, or a short one.
    fn buffer(&'static self) -> impl Strategy<Value = Vec<u8>> {
        let longest = self.lengths[self.lengths.len() - 1];
        let lengths = vec![0, 64, 128, longest - 1, longest, longest + 1, 40_000];
        (any::<u8>(), select(lengths)).prop_map(|(byte, len)| vec![byte; len])
    }

    /// An add or a remove.
    fn change(&'static self) -> impl Strategy<Value = Call> {
        let data = (select(self.lengths), 0..3_usize, seed())
            .prop_map(|(len, more, seed)| noise(seed, len - 1 + more));
        prop_oneof![
            self.removes => self.name().prop_map(|name| Call::Remove { name }),
            self.adds => (self.name(), any::<u32>(), data)
                .prop_map(|(name, date, data)| Call::Add { name, date, data }),
        ]
    }

    /// A batch of up to seven adds and removes, with names that a list can have;
    /// now and then what follows them is wrong.
    fn batch(&'static self) -> impl Strategy<Value = Call> {
        let item = self.change().prop_map(|mut item| {
            let (Call::Add { name, .. } | Call::Remove { name }) = &mut item else {
                panic!("no item");
            };
            name.truncate(255);
            item
        });
        let tail = prop_oneof![
            3 => Just(Vec::new()),
            1 => select(&WRONG_ENDS[..]).prop_map(<[u8]>::to_vec),
        ];
        (vec(item, 0..8), tail).prop_map(|(items, tail)| Call::Batch { items, tail })
    }

    fn call(&'static self) -> impl Strategy<Value = Call> {
        let changes = self.adds + self.removes;
        let lent = prop_oneof![
            self.buffer().prop_map(|buffer| Call::List { buffer }),
            (self.name(), self.buffer()).prop_map(|(name, buffer)| Call::Read { name, buffer }),
        ];
        // One call of six is a batch.
        prop_oneof![
            5 * changes => self.change(),
            5 * (100 - changes) => lent,
            100 => self.batch(),
        ]
    }

    /// A history of the kind; half of them have no bad blocks.
    pub fn history(&'static self) -> impl Strategy<Value = History> {
        let bad = prop_oneof![
            3 => Just(Vec::new()),
            2 => vec(2..480_u16, 0..=self.bad),
            1 => vec(400..480_u16, 0..=self.bad),
        ];
        let name = (0..11_usize).prop_map(|len| b"random dsk"[..len].to_vec());
        let calls = vec(self.call(), 0..=2 * self.calls);
        (name, any::<u16>(), seed(), bad, calls).prop_map(|(name, number, old, bad, calls)| {
            History {
                name,
                number,
                old,
                bad,
                calls,
            }
        })
    }
}
