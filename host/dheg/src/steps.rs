//! Steps of a session, as `dheg edit` has them on its command line and
//! `dheg batch` in its list.

use std::ffi::{OsStr, OsString};
use std::path::Path;

use dhegluubin::BatchList;

use crate::failure::Failure;
use crate::progress::Progress;
use crate::{dates, files_io, names};

/// A change of the disk.
#[derive(Debug, PartialEq)]
pub enum Step {
    Put {
        name: Vec<u8>,
        file: OsString,
        date: u32,
    },
    Rm {
        name: Vec<u8>,
    },
}

/// The step that words begin with, and the words after it. Places decide what is
/// a verb, so that a file may be called put or rm.
pub fn first(words: &[OsString]) -> Result<(Step, &[OsString]), Failure> {
    match words {
        [verb, name, file, rest @ ..] if verb == "put" => {
            let name = names::parse(name).map_err(Failure::Usage)?;
            let file = file.clone();
            let (date, rest) = date(rest)?;
            Ok((Step::Put { name, file, date }, rest))
        }
        [verb, name, rest @ ..] if verb == "rm" => {
            let name = names::parse(name).map_err(Failure::Usage)?;
            Ok((Step::Rm { name }, rest))
        }
        _ => Err(Failure::Usage(none(words.first().map(OsString::as_os_str)))),
    }
}

/// Why words that begin with this one are no step.
fn none(verb: Option<&OsStr>) -> String {
    let verb = verb.unwrap_or_default().to_string_lossy();
    match &*verb {
        "put" => String::from("put needs NAME and FILE"),
        "rm" => String::from("rm needs NAME"),
        _ => format!("there is no step {verb}"),
    }
}

/// The date after a put, 0 unless given.
fn date(words: &[OsString]) -> Result<(u32, &[OsString]), Failure> {
    match words {
        [option, rest @ ..] if option == "--date" => match rest {
            [text, rest @ ..] => {
                let date = dates::parse(&text.to_string_lossy()).map_err(Failure::Usage)?;
                Ok((date, rest))
            }
            [] => Err(Failure::Usage(String::from("--date has no value"))),
        },
        _ => Ok((0, words)),
    }
}

impl Step {
    /// The name of the file that it changes.
    pub fn name(&self) -> &[u8] {
        match self {
            Step::Put { name, .. } | Step::Rm { name } => name,
        }
    }

    /// Puts the step on a list for the library; the bytes of its file are read.
    pub fn put_on(&self, list: &mut BatchList, progress: &Progress) -> Result<(), Failure> {
        match self {
            Step::Put { name, file, date } => {
                progress.show(&format!("adding {}", Path::new(file).display()));
                list.add(name, *date, &files_io::read_data(file)?);
            }
            Step::Rm { name } => {
                progress.show(&format!("removing {}", names::shown(name)));
                list.remove(name);
            }
        }
        Ok(())
    }
}

#[cfg(test)]
mod tests {
    use super::*;

    fn line(text: &str) -> Vec<OsString> {
        text.split(' ').map(OsString::from).collect()
    }

    #[test]
    fn one_after_the_other() {
        let args = line("put put rm --date 5 rm rm put --date --date rm a\\x00");
        let expected = [
            Step::Put {
                name: b"put".to_vec(),
                file: OsString::from("rm"),
                date: 5,
            },
            Step::Rm {
                name: b"rm".to_vec(),
            },
            Step::Put {
                name: b"--date".to_vec(),
                file: OsString::from("--date"),
                date: 0,
            },
            Step::Rm {
                name: b"a\0".to_vec(),
            },
        ];
        let mut rest = args.as_slice();
        for step in expected {
            let (found, after) = first(rest).unwrap();
            assert_eq!(found, step);
            rest = after;
        }
        assert!(rest.is_empty());
    }

    #[test]
    fn wrong_steps() {
        for text in [
            "",
            "put",
            "put a",
            "rm",
            "ls",
            "ls a b",
            "put a b --date",
            "put a b --date never",
            "rm \\y",
            "put \\y b",
        ] {
            assert_eq!(first(&line(text)).unwrap_err().status(), 2, "{text}");
        }
        assert_eq!(first(&[]).unwrap_err().status(), 2);
    }
}
