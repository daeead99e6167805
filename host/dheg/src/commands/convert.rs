//! What `dheg unpack` and `dheg pack` share: one file to one file, or several
//! into a folder.

use std::collections::BTreeSet;
use std::ffi::{OsStr, OsString};
use std::fs;
use std::path::Path;

use clap::{Arg, ArgMatches};

use super::several::{each, Told, Words};
use crate::args::{path_option, paths, paths_of};
use crate::failure::Failure;
use crate::files_io;
use crate::output::Output;
use crate::progress::Progress;

/// Files, and the folder for the results.
pub fn arguments() -> Vec<Arg> {
    vec![
        paths("files", "FILE", "IN and OUT; with --to all are inputs"),
        path_option(
            "to",
            "DIR",
            "Folder for the results, which is made if it is not there",
        ),
    ]
}

/// What becomes of what.
pub struct Conversion {
    /// Whether a file has the form of an input.
    pub is_input: fn(&OsStr) -> bool,
    /// Of the results in a folder, which are named after the inputs.
    pub extension: &'static str,
    /// What was done with an input.
    pub done: &'static str,
}

/// Does the job with each input; `job` has the paths of input and result.
pub fn run(
    given: &ArgMatches,
    output: &Output,
    conversion: &Conversion,
    job: impl Fn(&OsStr, &OsStr, &Progress) -> Result<Told, Failure> + Sync,
) -> Result<(), Failure> {
    let files = paths_of(given, "files");
    let (inputs, results) = match given.get_one::<OsString>("to") {
        Some(folder) => in_folder(files, Path::new(folder), conversion.extension)?,
        None => one_pair(files, conversion.is_input)?,
    };
    let words = Words {
        done: conversion.done,
        unread: "not read or written",
    };
    each(&inputs, words, output, |index, input, progress| {
        let result = results.get(index).map(OsString::as_os_str);
        job(input, result.unwrap_or_default(), progress)
    })
}

/// Inputs, and a path for the result of each.
type Pairs = (Vec<OsString>, Vec<OsString>);

/// One input and its result. A result that has the form of an input is more
/// likely one, as where a pattern of the shell gave two files.
fn one_pair(files: Vec<OsString>, is_input: fn(&OsStr) -> bool) -> Result<Pairs, Failure> {
    let [input, result] = <[OsString; 2]>::try_from(files).map_err(|files| {
        Failure::Usage(format!(
            "files needed without --to: 2, given: {}",
            files.len()
        ))
    })?;
    files_io::not_the_input(&input, &result)?;
    if is_input(&result) {
        let result = Path::new(&result).display();
        return Err(Failure::Usage(format!(
            "{result} looks like an input and would be lost; two inputs need --to"
        )));
    }
    Ok((vec![input], vec![result]))
}

/// The results of all inputs, each of another name, in a folder that is there.
fn in_folder(files: Vec<OsString>, folder: &Path, extension: &str) -> Result<Pairs, Failure> {
    let mut taken = BTreeSet::new();
    let mut results = Vec::new();
    for file in &files {
        // Only the last extension gives way: a.b.hfe becomes a.b.img.
        let mut name = Path::new(file).file_stem().unwrap_or_default().to_owned();
        name.push(format!(".{extension}"));
        let result = folder.join(name);
        if !taken.insert(result.clone()) {
            let result = result.display();
            return Err(Failure::Usage(format!("two results would be {result}")));
        }
        files_io::not_the_input(file, result.as_os_str())?;
        results.push(result.into_os_string());
    }
    fs::create_dir_all(folder).map_err(|error| Failure::io(folder, error))?;
    Ok((files, results))
}
