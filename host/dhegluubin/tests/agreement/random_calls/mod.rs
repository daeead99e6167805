//! Random histories of calls of every function: any lengths, random bytes,
//! damaged images. Library and reference must agree on every reply and every
//! lent byte. A history on which they do not is shown with few calls.
//!
//! `DHEG_CASES=100000 host/run-cargo test -p dhegluubin random_calls` makes about
//! as many calls.

mod bytes;
mod file_calls;
mod images;
mod sector_calls;

use crate::file_layer::build::{fresh, full_directory, scattered, three_files};
use file_calls::{file_call, FileCall};
use images::Image;
use proptest::collection::vec;
use proptest::prelude::*;
use sector_calls::{sector_call, SectorCall};
use std::cell::RefCell;
use std::collections::BTreeMap;
use std::fmt;
use support::cases::cases;
use support::property::{assert_holds, counterexample};

/// How many calls are usually made.
const USUAL: u32 = 1500;

/// How many calls a history has on average.
const OF_A_HISTORY: u32 = 100;

/// All that are made.
const CALLS: [&str; 13] = [
    "unpack",
    "pack",
    "rewrite",
    "place",
    "format",
    "format_bad",
    "check",
    "list",
    "read",
    "add",
    "remove",
    "batch",
    "first_track",
];

/// Which call was made, and the number of its reply.
type Made = (&'static str, usize);

/// The disk that a history begins with.
#[derive(Clone, Copy, Debug)]
enum Start {
    Fresh,
    ThreeFiles,
    Scattered,
    FullDirectory,
}

#[derive(Clone, Debug)]
enum Call {
    OfSectors(SectorCall),
    OfFiles(Image, FileCall),
}

/// Calls that follow one another, and the disk before the first.
#[derive(Clone)]
struct History {
    start: Start,
    calls: Vec<Call>,
}

impl fmt::Debug for History {
    /// A line for each call.
    fn fmt(&self, to: &mut fmt::Formatter) -> fmt::Result {
        write!(to, "{:?}", self.start)?;
        let mut calls = self.calls.iter();
        calls.try_for_each(|call| write!(to, "\n    {call:?}"))
    }
}

/// A history of less than so many calls.
fn history(calls: usize) -> impl Strategy<Value = History> {
    let start = prop_oneof![
        3 => Just(Start::Fresh),
        1 => Just(Start::ThreeFiles),
        1 => Just(Start::Scattered),
        1 => Just(Start::FullDirectory),
    ];
    let call = prop_oneof![
        65 => file_call().prop_map(|(image, call)| Call::OfFiles(image, call)),
        35 => sector_call().prop_map(Call::OfSectors),
    ];
    (start, vec(call, 0..calls)).prop_map(|(start, calls)| History { start, calls })
}

impl History {
    /// Makes the calls, and tells of each of them.
    fn make(&self, mut tell: impl FnMut(Made)) {
        let mut disk = match self.start {
            Start::Fresh => fresh(),
            Start::ThreeFiles => three_files(),
            Start::Scattered => scattered(),
            Start::FullDirectory => full_directory(),
        };
        for call in &self.calls {
            tell(match call {
                Call::OfSectors(call) => call.make(),
                Call::OfFiles(image, call) => call.make(image, &mut disk),
            });
        }
    }
}

#[test]
fn random_calls() {
    let counts: RefCell<BTreeMap<Made, u32>> = RefCell::default();
    let histories = cases(USUAL).div_ceil(OF_A_HISTORY);
    let input = history(2 * OF_A_HISTORY as usize);
    assert_holds(1, histories, &input, |history| {
        history.make(|made| *counts.borrow_mut().entry(made).or_insert(0) += 1);
    });
    let counts = counts.into_inner();
    println!("calls by name and number: {counts:?}");
    if cases(USUAL) >= USUAL {
        assert_done_and_refused(&counts);
    }
}

/// Asserts that each call was done and refused, but for unpacking: that is
/// never tried on a whole good disk, which takes long. Wrong codes are among
/// what it was refused for, wrong good words among those of a disk, wrong lists
/// and refused items among those of a batch.
fn assert_done_and_refused(counts: &BTreeMap<Made, u32>) {
    for made in [
        ("unpack", 18),
        ("check", 19),
        ("add", 19),
        ("remove", 19),
        ("batch", 14),
        ("batch", 20),
    ] {
        assert!(counts.contains_key(&made), "{made:?}");
    }
    for call in CALLS {
        let numbers = || counts.keys().filter(|made| made.0 == call);
        let done = call == "unpack" || numbers().any(|made| made.1 == 0);
        assert!(done, "{call} is never done");
        let refused = numbers().any(|made| made.1 != 0);
        assert!(refused, "{call} is never refused");
    }
}

/// What fails for one call only is shown with this call alone, and with the least
/// number that fails.
#[test]
fn one_call_is_left_of_a_failing_history() {
    let late = |call: &Call| match call {
        Call::OfFiles(_, FileCall::Add { date, .. }) => *date > 1000,
        _ => false,
    };
    let found = counterexample(2, 100, &history(200), |history| {
        assert!(!history.calls.iter().any(late), "a late date");
    });
    let (why, history) = found.expect("a late date is among so many adds");
    assert!(why.contains("a late date"), "{why}");
    let History { start, calls } = history;
    assert!(matches!(start, Start::Fresh), "{start:?}");
    assert!(
        matches!(
            calls[..],
            [Call::OfFiles(Image::Disk, FileCall::Add { date: 1001, .. })]
        ),
        "{calls:?}"
    );
}

/// What needs a call before it is shown with both: here, that a file of a disk
/// that was fresh is read.
#[test]
fn two_calls_are_left_where_both_are_needed() {
    let found = counterexample(3, 100, &history(30), |history| {
        let start = Start::Fresh;
        let calls = history.calls.clone();
        History { start, calls }.make(|made| assert_ne!(made, ("read", 0)));
    });
    let (_, history) = found.expect("some file is read");
    assert!(
        matches!(
            history.calls[..],
            [
                Call::OfFiles(_, FileCall::Add { .. } | FileCall::Batch { .. }),
                Call::OfFiles(_, FileCall::Read { .. })
            ]
        ),
        "{history:?}"
    );
}
