//! A public name of the specs and their laws stands for one thing: no two files declare it,
//! and no other differs from it in letter case alone.

use crate::sources::{assert_none, declared, sources, Declared};
use std::collections::BTreeMap;

/// All public definitions and laws, in small letters, each as it
/// is written and where.
fn public_names() -> BTreeMap<String, Vec<(String, String)>> {
    let mut found: BTreeMap<String, Vec<(String, String)>> = BTreeMap::new();
    let sources = sources(&["crates"]);
    let specs = sources
        .iter()
        .filter(|source| source.has_laws());
    for source in specs {
        for kind in [Declared::Definition, Declared::Law] {
            for (line, name) in declared(source, kind) {
                let place = (name.to_owned(), source.at(line, name));
                found.entry(name.to_lowercase()).or_default().push(place);
            }
        }
    }
    found
}

#[test]
fn a_public_name_is_declared_once() {
    let mut failures = Vec::new();
    for places in public_names().into_values() {
        for (at, (name, place)) in places.iter().enumerate() {
            if places[..at].iter().any(|(other, _)| other == name) {
                failures.push(place.clone());
            }
        }
    }
    assert_none("names declared before", &failures);
}

#[test]
fn public_names_differ_by_more_than_letter_case() {
    let mut failures = Vec::new();
    for places in public_names().into_values() {
        let (first, _) = &places[0];
        for (name, place) in &places[1..] {
            if name != first {
                failures.push(format!("{place} beside {first}"));
            }
        }
    }
    assert_none("names alike but for letter case", &failures);
}
