//! The list of `dheg batch`: a step a line, in words.
//!
//! Words are set apart by spaces and tabs. A word that begins with a double quote
//! goes on to the next one, and has what stands between the two; every other word
//! is taken as it stands. Blank lines are passed over, and so are those that begin
//! with `#`.

use std::ffi::OsString;

use crate::failure::Failure;
use crate::steps::{self, Step};

/// A step, and the line that it stands on, from 1.
#[derive(Debug, PartialEq)]
pub struct Line {
    pub number: usize,
    pub step: Step,
}

/// All steps of a list, or what is wrong with the first line that is none. `name`
/// is the list's, for whoever has to put it right.
pub fn parse(name: &str, text: &[u8]) -> Result<Vec<Line>, Failure> {
    let mut lines = Vec::new();
    for (number, line) in (1..).zip(text.split(|&byte| byte == b'\n')) {
        let found = step(line).map_err(|failure| in_line(name, number, failure))?;
        lines.extend(found.map(|step| Line { number, step }));
    }
    Ok(lines)
}

/// Where a line stands, in words.
pub fn place(name: &str, number: usize) -> String {
    format!("{name}, line {number}")
}

/// A wrong line is named.
fn in_line(name: &str, number: usize, failure: Failure) -> Failure {
    match failure {
        Failure::Usage(text) => Failure::Usage(format!("{}: {text}", place(name, number))),
        other => other,
    }
}

/// The step of a line, if it has one. Nothing may follow it.
fn step(line: &[u8]) -> Result<Option<Step>, Failure> {
    let wrong = |text: String| Err(Failure::Usage(text));
    let Ok(line) = std::str::from_utf8(line) else {
        return wrong(String::from("is not text in UTF-8"));
    };
    let line = line.trim_matches(is_blank);
    if line.is_empty() || line.starts_with('#') {
        return Ok(None);
    }
    let words = words(line)?;
    match steps::first(&words)? {
        (step, []) => Ok(Some(step)),
        (_, [word, ..]) => wrong(format!("{} is too much", word.to_string_lossy())),
    }
}

/// A carriage return ends the lines of some systems.
fn is_blank(letter: char) -> bool {
    matches!(letter, ' ' | '\t' | '\r')
}

/// The words of a line that does not begin or end with a blank.
fn words(line: &str) -> Result<Vec<OsString>, Failure> {
    let mut words = Vec::new();
    let mut rest = line;
    while !rest.is_empty() {
        let (word, after) = first_word(rest)?;
        words.push(OsString::from(word));
        rest = after.trim_start_matches(is_blank);
    }
    Ok(words)
}

/// The word that a text begins with, and what stands after it.
fn first_word(text: &str) -> Result<(&str, &str), Failure> {
    let wrong = |why: &str| Err(Failure::Usage(format!("a double quote {why}")));
    let Some(quoted) = text.strip_prefix('"') else {
        let end = text.find(is_blank).unwrap_or(text.len());
        return Ok(text.split_at(end));
    };
    match quoted.split_once('"') {
        Some((word, after)) if after.is_empty() || after.starts_with(is_blank) => Ok((word, after)),
        Some(_) => wrong("ends within a word"),
        None => wrong("has no second"),
    }
}

#[cfg(test)]
mod tests {
    use super::*;

    fn put(name: &[u8], file: &str, date: u32) -> Step {
        Step::Put {
            name: name.to_vec(),
            file: OsString::from(file),
            date,
        }
    }

    fn rm(name: &[u8]) -> Step {
        Step::Rm {
            name: name.to_vec(),
        }
    }

    #[test]
    fn lines_and_their_numbers() {
        let text = "\n# cues of act one\nrm cue_7\r\n  \t\n\tput cue_7b new.txt --date 5 \n\
                    # rm all\n   # no step\nput boot boot.bas";
        let lines = parse("cues", text.as_bytes()).unwrap();
        let expected = [
            (3, rm(b"cue_7")),
            (5, put(b"cue_7b", "new.txt", 5)),
            (8, put(b"boot", "boot.bas", 0)),
        ];
        let expected = expected.map(|(number, step)| Line { number, step });
        assert_eq!(lines, expected);
        for empty in ["", "\n", "#", " \r\n\t#rm a"] {
            assert_eq!(parse("cues", empty.as_bytes()).unwrap(), []);
        }
    }

    #[test]
    fn quotes_and_escapes() {
        for (line, step) in [
            ("rm \"two words\"", rm(b"two words")),
            ("rm \"\"", rm(b"")),
            ("rm \"#1\"", rm(b"#1")),
            ("rm #1", rm(b"#1")),
            ("rm a\"b", rm(b"a\"b")),
            ("rm \\x22a\\x20b", rm(b"\"a b")),
            ("\"rm\" \"\\x00\\\\\"", rm(b"\0\\")),
            ("rm \u{E9}", rm(b"\xC3\xA9")),
            (
                "put a \"my files/a b\" --date \"1961-01-01 00:00:09\"",
                put(b"a", "my files/a b", 9),
            ),
            // A backslash stands for itself in the name of a file to read.
            ("put a dir\\x41", put(b"a", "dir\\x41", 0)),
            ("put rm put", put(b"rm", "put", 0)),
        ] {
            let expected = Line { number: 1, step };
            assert_eq!(
                parse("cues", line.as_bytes()).unwrap(),
                [expected],
                "{line}"
            );
        }
    }

    #[test]
    fn wrong_lines() {
        for (line, words) in [
            ("ls", "there is no step ls"),
            ("PUT a b", "there is no step PUT"),
            ("rm", "rm needs NAME"),
            ("put a", "put needs NAME and FILE"),
            ("rm a b", "b is too much"),
            ("rm a # why", "# is too much"),
            ("put a b c", "c is too much"),
            ("put a b --date", "--date has no value"),
            ("put a b --date 1 --date 2", "--date is too much"),
            ("rm a --date 1", "--date is too much"),
            ("rm \"a", "a double quote has no second"),
            ("rm \"a\"b", "a double quote ends within a word"),
            ("rm \"a\"\"b\"", "a double quote ends within a word"),
        ] {
            let text = format!("rm first\n\n{line}\nls");
            let failure = parse("cues", text.as_bytes()).unwrap_err();
            assert_eq!(
                failure.to_string(),
                format!("dheg: cues, line 3: {words}\n")
            );
            assert_eq!(failure.status(), 2);
        }
        let failure = parse("cues", b"rm \xFF").unwrap_err();
        let words = "dheg: cues, line 1: is not text in UTF-8\n";
        assert_eq!(failure.to_string(), words);
    }
}
