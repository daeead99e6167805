//! Every promise that `docs/PROMISES.md` names stands in a crate's list of
//! promises, `proofs/Theorems.antt`, and every one there has its place in the
//! document; so has every program that must be refused.

use crate::sources::{assert_none, declared, sources, Declared, Source};
use std::collections::BTreeSet;

/// The document of the promises.
fn promises() -> String {
    sources(&["docs/PROMISES.md"]).remove(0).lines.join("\n")
}

/// The texts between two marks, from the first one on.
fn between(text: &str, mark: char) -> impl Iterator<Item = &str> {
    text.split(mark).skip(1).step_by(2)
}

/// The names in italics: one asterisk before and after, and no space within.
fn named(text: &str) -> BTreeSet<&str> {
    let lines = text.lines();
    let marked = lines.flat_map(|line| line.split("**").step_by(2));
    let names = marked.flat_map(|part| between(part, '*'));
    names.filter(|name| !name.contains(' ')).collect()
}

/// The names that a line of a list passes on.
fn passed_on(line: &str) -> Vec<&str> {
    let Some(rest) = line.strip_prefix("pub use ") else {
        return Vec::new();
    };
    let names = rest.split_once('{').map_or("", |(_, names)| names);
    let names = names.trim_end_matches('}').split(',');
    names.map(str::trim).collect()
}

/// The promises of a list: passed on, or stated there.
fn listed(source: &Source) -> Vec<&str> {
    let lines = source.lines.iter();
    let passed = lines.flat_map(|line| passed_on(line));
    let stated = declared(source, Declared::Law).map(|(_, name)| name);
    passed.chain(stated).collect()
}

/// The crates' lists of promises.
fn lists() -> Vec<Source> {
    let mut all = sources(&["crates"]);
    all.retain(|source| source.path.ends_with("/proofs/Theorems.antt"));
    all
}

#[test]
fn every_promise_is_in_a_list() {
    let text = promises();
    let lists = lists();
    let known: BTreeSet<&str> = lists.iter().flat_map(listed).collect();
    let names = named(&text);
    assert!(names.contains("round_trip") && names.contains("history"));
    let missing: Vec<String> = names.difference(&known).map(|&n| n.to_owned()).collect();
    assert_none("promises that no list has", &missing);
}

#[test]
fn every_listed_promise_is_in_the_document() {
    let text = promises();
    let quoted: BTreeSet<&str> = between(&text, '`').collect();
    let names = named(&text);
    let mut failures = Vec::new();
    for list in lists() {
        for name in listed(&list) {
            if !names.contains(name) && !quoted.contains(name) {
                failures.push(format!("{}: {name}", list.path));
            }
        }
    }
    assert_none("promises that the document does not name", &failures);
}

#[test]
fn every_refused_program_is_in_the_document() {
    let text = promises();
    let quoted: BTreeSet<&str> = between(&text, '`').collect();
    let mut failures = Vec::new();
    for source in sources(&["crates"]) {
        let name = source.path.rsplit('/').next().unwrap_or_default();
        if let Some(name) = name.strip_suffix(".edit") {
            if !quoted.contains(name) {
                failures.push(source.path);
            }
        }
    }
    assert_none("refused programs without a line", &failures);
}
