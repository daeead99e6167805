//! Every public law has its comment; files and lines are short.

use crate::sources::{assert_none, declared, sources, Declared};

/// Most lines of a file, and most characters of a line of a definition or a
/// proof.
const MOST_LINES: usize = 400;
const MOST_CHARACTERS: usize = 160;

#[test]
fn every_law_has_a_comment() {
    let sources = sources(&["crates"]);
    let judged = sources
        .iter()
        .filter(|source| source.has_laws());
    let mut failures = Vec::new();
    for source in judged {
        for (line, name) in declared(source, Declared::Law) {
            if source.comment_above(line).next().is_none() {
                failures.push(source.at(line, name));
            }
        }
    }
    assert_none("laws without a comment", &failures);
}

#[test]
fn files_are_short() {
    let mut failures = Vec::new();
    for source in sources(&["crates", "host", "include"]) {
        let lines = source.lines.len();
        if source.has_ending(&["antt", "rt", "rs", "c", "h"]) && lines > MOST_LINES {
            failures.push(source.at(MOST_LINES, &format!("{lines} lines")));
        }
    }
    assert_none("long files", &failures);
}

#[test]
fn lines_of_definitions_and_proofs_are_short() {
    let mut failures = Vec::new();
    for source in sources(&["crates"]) {
        if !source.has_ending(&["antt"]) {
            continue;
        }
        for (line, text) in source.lines.iter().enumerate() {
            let characters = text.chars().count();
            if characters > MOST_CHARACTERS {
                failures.push(source.at(line, &format!("{characters} characters")));
            }
        }
    }
    assert_none("long lines", &failures);
}
