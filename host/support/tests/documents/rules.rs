//! Every rule of `docs/RULES.md` is cited by a definition, by code and by a
//! test, every cite names a rule and stands on a line that says something, and
//! every public definition cites one.

use crate::sources::{assert_none, declared, is_comment, sources, Declared, Source};
use std::collections::BTreeSet;

/// The numbers of all rules that a line cites, as they stand there.
fn cites(line: &str) -> Vec<&str> {
    let after = line.split('§').skip(1);
    let numbers = after.map(|rest| {
        let end = rest.find(|c: char| !c.is_ascii_digit() && c != '.');
        rest[..end.unwrap_or(rest.len())].trim_end_matches('.')
    });
    numbers.filter(|number| !number.is_empty()).collect()
}

/// The document of the rules.
fn rules_document() -> Source {
    sources(&["docs/RULES.md"]).remove(0)
}

/// The rules in the order in which they stand, each with its line.
fn rules(document: &Source) -> Vec<(usize, &str)> {
    let lines = document.lines.iter().enumerate();
    lines
        .filter(|(_, text)| text.trim_start_matches("| ").starts_with("**§"))
        .map(|(line, text)| (line, cites(text)[0]))
        .collect()
}

/// Section and place of a rule's number.
fn section_and_place(number: &str) -> Option<(usize, usize)> {
    let (section, place) = number.split_once('.')?;
    Some((section.parse().ok()?, place.parse().ok()?))
}

/// The section that a heading begins.
fn heading(line: &str) -> Option<usize> {
    line.strip_prefix("## ")?.split_once('.')?.0.parse().ok()
}

/// The rules that none of these lines cites.
fn uncited<'a>(lines: impl Iterator<Item = &'a str>) -> Vec<String> {
    let cited: BTreeSet<&str> = lines.flat_map(cites).collect();
    let document = rules_document();
    rules(&document)
        .into_iter()
        .filter(|(_, number)| !cited.contains(number))
        .map(|(line, number)| document.at(line, &format!("§{number}")))
        .collect()
}

/// Whether a line says something besides its cites.
fn has_words(line: &str) -> bool {
    let joins = ["and", "or", "to"];
    let mut words = line.split_whitespace();
    words.any(|word| {
        let letters = word.chars().filter(|c| c.is_alphabetic()).count();
        letters > 1 && !word.contains('§') && !joins.contains(&word)
    })
}

/// All lines of some files.
fn lines<'a>(sources: impl Iterator<Item = &'a Source>) -> impl Iterator<Item = &'a str> {
    sources.flat_map(|source| source.lines.iter().map(String::as_str))
}

#[test]
fn rules_are_numbered_in_order() {
    let document = rules_document();
    let mut failures = Vec::new();
    let mut last = (0, 0);
    for (line, number) in rules(&document) {
        let mut above = document.lines[..line].iter().rev();
        let section = above.find_map(|text| heading(text)).unwrap_or(0);
        let place = if section == last.0 { last.1 + 1 } else { 1 };
        if section_and_place(number) != Some((section, place)) {
            failures.push(document.at(line, &format!("§{number}, not §{section}.{place}")));
        }
        last = (section, place);
    }
    let sections = document.lines.iter().filter_map(|text| heading(text));
    assert!(sections.eq(1..=last.0), "the sections are in order");
    assert_none("rules out of order", &failures);
}

#[test]
fn every_cite_names_a_rule() {
    let document = rules_document();
    let known: BTreeSet<&str> = rules(&document).iter().map(|rule| rule.1).collect();
    let mut failures = Vec::new();
    for source in sources(&["crates", "host", "docs", "include", "README.md"]) {
        for (line, text) in source.lines.iter().enumerate() {
            for number in cites(text).into_iter().filter(|&n| !known.contains(n)) {
                failures.push(source.at(line, &format!("§{number}")));
            }
        }
    }
    assert_none("cites of no rule", &failures);
}

#[test]
fn every_cite_stands_with_words() {
    let mut failures = Vec::new();
    for source in sources(&["crates", "host"]) {
        for (line, text) in source.lines.iter().enumerate() {
            let text = text.trim();
            if is_comment(text) && !cites(text).is_empty() && !has_words(text) {
                failures.push(source.at(line, text));
            }
        }
    }
    assert_none("lines with nothing but cites", &failures);
}

#[test]
fn every_rule_is_cited_by_a_definition() {
    let sources = sources(&["crates"]);
    let files = sources.iter().filter(|source| source.has_definitions());
    let comments = files.flat_map(|source| {
        declared(source, Declared::Definition).flat_map(|(line, _)| source.comment_above(line))
    });
    assert_none("rules that no definition cites", &uncited(comments));
}

#[test]
fn every_rule_is_cited_by_code() {
    let sources = sources(&["crates"]);
    let code = sources
        .iter()
        .filter(|source| source.has_ending(&["rt"]) && source.is_below("src"));
    assert_none("rules that no code cites", &uncited(lines(code)));
}

#[test]
fn every_rule_is_cited_by_a_test() {
    let sources = sources(&["host"]);
    let files = sources
        .iter()
        .filter(|source| source.has_ending(&["rs"]) && source.is_below("tests"));
    // Of the comments above the tests themselves: a file's head does not count.
    let comments = files.flat_map(|source| {
        let lines = source.lines.iter().enumerate();
        let tests = lines.filter(|(_, text)| text.trim() == "#[test]");
        tests.flat_map(|(line, _)| source.comment_above(line))
    });
    assert_none("rules that no test cites", &uncited(comments));
}

#[test]
fn every_definition_cites_a_rule() {
    let sources = sources(&["crates"]);
    let judged = sources.iter().filter(|source| {
        source.has_definitions() && source.is_of_rule_crate() && !source.is_index()
    });
    let mut failures = Vec::new();
    for source in judged {
        for (line, name) in declared(source, Declared::Definition) {
            if !source
                .comment_above(line)
                .any(|text| !cites(text).is_empty())
            {
                failures.push(source.at(line, name));
            }
        }
    }
    assert_none("definitions that cite no rule", &failures);
}
