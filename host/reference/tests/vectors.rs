//! The outside answers in `tests/data` as files: which of them change with a
//! change request.

use std::collections::BTreeSet;
use support::json::{parse_lines, Contents};

const BASE: &str = include_str!("data/requests/base.jsonl");

/// The files of level 0, each with the number of its lines that change with
/// some request.
const FILES: [(&str, &str, usize); 3] = [
    ("histories.jsonl", include_str!("data/histories.jsonl"), 22),
    ("corrupted.jsonl", include_str!("data/corrupted.jsonl"), 30),
    ("damaged.jsonl", include_str!("data/damaged.jsonl"), 4),
];

/// Every line of `base.jsonl` names a line that is there, none of them twice.
#[test]
fn lines_that_change_are_there() {
    let changes = parse_lines(BASE);
    let named: BTreeSet<(&str, usize)> = changes
        .iter()
        .map(|change| (change.member("file").text(), change.member("line").size()))
        .collect();
    assert_eq!(named.len(), changes.len());
    for (file, line) in &named {
        let found = FILES.iter().find(|(name, ..)| name == file);
        let (_, lines, _) = found.unwrap_or_else(|| panic!("no file {file}"));
        assert!((1..=lines.lines().count()).contains(line), "{file}: {line}");
    }
    for (file, _, count) in FILES {
        let own = named.iter().filter(|(name, _)| *name == file);
        assert_eq!(own.count(), count, "{file}");
    }
}
