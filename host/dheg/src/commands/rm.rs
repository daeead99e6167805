//! `dheg rm`

use clap::{Arg, ArgMatches};
use dhegluubin::BatchList;

use super::Command;
use crate::args::{path, path_of, patterns, patterns_of};
use crate::changes::{self, matching};
use crate::failure::Failure;
use crate::images::Disk;
use crate::output::Output;
use crate::patterns::Pattern;

pub const COMMAND: Command = Command {
    name: "rm",
    usage: &["IMAGE NAME..."],
    about: "Remove files from an image",
    details: "\
No byte of the files stays in the image. A to Z in NAME count as a to z. \\xHH
stands for the byte with this hexadecimal value, \\\\ for a backslash. A NAME with
a * or a ? stands for all files that match; it is refused if there is none.

All of them are removed, or none: if one is refused, the image is not changed.
",
    example: "dheg rm work.img letter_txt",
    arguments,
    run,
};

fn arguments() -> Vec<Arg> {
    vec![
        path("image", "IMAGE", "HFE image or block image"),
        patterns("names", "NAME", "Files on the disk, or patterns").num_args(1..),
    ]
}

fn run(given: &ArgMatches, output: &Output) -> Result<(), Failure> {
    let progress = output.progress();
    let mut disk = Disk::read_to_change(path_of(given, "image"), &progress)?;
    let names = names(&disk, &patterns_of(given, "names"))?;
    let mut list = BatchList::new();
    for name in &names {
        list.remove(name);
    }
    let names: Vec<&[u8]> = names.iter().map(Vec::as_slice).collect();
    changes::make(&mut disk, &list, &names)?;
    disk.write(output, &progress)
}

/// The names of the files that are meant. A file that several of the patterns
/// match is removed once.
fn names(disk: &Disk, patterns: &[Pattern]) -> Result<Vec<Vec<u8>>, Failure> {
    let mut names: Vec<Vec<u8>> = Vec::new();
    for pattern in patterns {
        let found = match pattern.one_name() {
            Some(name) => vec![name],
            None => {
                let found = matching(disk, pattern)?.into_iter();
                found.map(|entry| entry.name).collect()
            }
        };
        for name in found {
            if !names.iter().any(|one| one.eq_ignore_ascii_case(&name)) {
                names.push(name);
            }
        }
    }
    Ok(names)
}
