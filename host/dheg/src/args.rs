//! Arguments that several commands take, and how their values are read.

use std::ffi::{OsStr, OsString};

use clap::builder::{OsStringValueParser, TypedValueParser};
use clap::{Arg, ArgAction, ArgMatches, ValueHint};

use crate::patterns::{self, Pattern};
use crate::{dates, names};

/// A file or a folder that has to be named.
pub fn path(id: &'static str, value: &'static str, help: &'static str) -> Arg {
    Arg::new(id)
        .value_name(value)
        .help(help)
        .required(true)
        .value_parser(OsStringValueParser::new().try_map(parse_path))
        .value_hint(ValueHint::AnyPath)
}

/// One or more files.
pub fn paths(id: &'static str, value: &'static str, help: &'static str) -> Arg {
    path(id, value, help).num_args(1..)
}

/// An option whose value is a file or a folder.
pub fn path_option(id: &'static str, value: &'static str, help: &'static str) -> Arg {
    path(id, value, help).required(false).long(id)
}

/// The name of a file on a disk, or of a disk.
pub fn name(id: &'static str, help: &'static str) -> Arg {
    Arg::new(id)
        .value_name("NAME")
        .help(help)
        .required(true)
        .value_parser(OsStringValueParser::new().try_map(|text| names::parse(&text)))
}

/// An option whose value is a name.
pub fn name_option(id: &'static str, help: &'static str) -> Arg {
    name(id, help).required(false).long(id)
}

/// Patterns of names of files on a disk.
pub fn patterns(id: &'static str, value: &'static str, help: &'static str) -> Arg {
    Arg::new(id)
        .value_name(value)
        .help(help)
        .required(true)
        .value_parser(OsStringValueParser::new().try_map(|text| patterns::parse(&text)))
}

/// An option whose value is a pattern, and that may be repeated.
pub fn patterns_option(id: &'static str, help: &'static str) -> Arg {
    patterns(id, "PATTERN", help)
        .required(false)
        .long(id)
        .action(ArgAction::Append)
}

/// A number that has to be given.
pub fn number(id: &'static str, value: &'static str, help: &'static str) -> Arg {
    Arg::new(id)
        .value_name(value)
        .help(help)
        .required(true)
        .value_parser(parse_number)
}

/// The date of files that are added.
pub fn date() -> Arg {
    Arg::new("date")
        .long("date")
        .value_name("D")
        .help("QL date: its seconds, or YYYY-MM-DD HH:MM:SS, or now")
        .value_parser(|text: &str| dates::parse(text))
}

/// An option without a value.
pub fn flag(id: &'static str, help: &'static str) -> Arg {
    Arg::new(id).long(id).help(help).action(ArgAction::SetTrue)
}

/// That results are to be JSON.
pub fn json() -> Arg {
    flag(
        "json",
        "Print a line of JSON for each image, refused ones too",
    )
}

/// The path that was given; the reader has seen to it that there is one.
pub fn path_of<'a>(given: &'a ArgMatches, id: &str) -> &'a OsStr {
    let path = given.get_one::<OsString>(id);
    path.map(OsString::as_os_str).unwrap_or_default()
}

/// All paths that were given.
pub fn paths_of(given: &ArgMatches, id: &str) -> Vec<OsString> {
    let paths = given.get_many::<OsString>(id);
    paths
        .map(|paths| paths.cloned().collect())
        .unwrap_or_default()
}

/// All patterns that were given.
pub fn patterns_of(given: &ArgMatches, id: &str) -> Vec<Pattern> {
    let patterns = given.get_many::<Pattern>(id);
    patterns
        .map(|patterns| patterns.cloned().collect())
        .unwrap_or_default()
}

/// The name that was given.
pub fn name_of(given: &ArgMatches, id: &str) -> Option<Vec<u8>> {
    given.get_one::<Vec<u8>>(id).cloned()
}

/// The number that was given.
pub fn number_of(given: &ArgMatches, id: &str) -> usize {
    given.get_one(id).copied().unwrap_or_default()
}

/// A path. An empty one would be taken for the current folder.
fn parse_path(text: OsString) -> Result<OsString, &'static str> {
    match text.is_empty() {
        true => Err("a path is needed"),
        false => Ok(text),
    }
}

/// A number in decimal digits. One that is too great for the machine is given
/// as the greatest: both are out of every range that the library judges.
pub fn parse_number(text: &str) -> Result<usize, String> {
    match !text.is_empty() && text.bytes().all(|byte| byte.is_ascii_digit()) {
        true => Ok(text.parse().unwrap_or(usize::MAX)),
        false => Err(String::from("not a number")),
    }
}

/// A number of 16 bits.
pub fn parse_word(text: &str) -> Result<u16, String> {
    u16::try_from(parse_number(text)?).map_err(|_| String::from("over 65535"))
}

#[cfg(test)]
mod tests {
    use super::*;

    #[test]
    fn numbers() {
        let parsed = |text: &str| parse_number(text).ok();
        assert_eq!(parsed("0"), Some(0));
        assert_eq!(parsed("479"), Some(479));
        assert_eq!(parsed(&"9".repeat(40)), Some(usize::MAX));
        for text in ["", "-1", "+1", "1 ", "0x10", "\u{661}"] {
            assert_eq!(parsed(text), None, "{text}");
        }
    }

    #[test]
    fn words() {
        assert_eq!(parse_word("65535"), Ok(65535));
        assert_eq!(parse_word("65536"), Err(String::from("over 65535")));
        assert_eq!(parse_word("six"), Err(String::from("not a number")));
    }
}
