//! `dheg batch`

use std::path::Path;

use clap::{Arg, ArgMatches};
use dhegluubin::{batch, BatchList, BatchRefusal};

use super::Command;
use crate::args::{path, path_of};
use crate::failure::Failure;
use crate::images::Disk;
use crate::output::Output;
use crate::progress::Progress;
use crate::step_list::{self, Line};
use crate::{files_io, names};

pub const COMMAND: Command = Command {
    name: "batch",
    usage: &["IMAGE LISTFILE"],
    about: "Remove and add the files of a list in an image",
    details: "\
LISTFILE has an item a line, with names and dates as dheg put and dheg rm take
them, but without patterns:

  put NAME FILE [--date D]
  rm NAME

The list is UTF-8 text. Words are set apart by spaces; one that has spaces
stands in double quotes, and a double quote in a name is written \\x22. FILE is
looked for from the current folder. Blank lines and lines that begin with # are
passed over.

The whole list and all its files are read before IMAGE is changed. Then the
items are taken in order, in one call. If one is refused, its line and its number
are told, IMAGE is written with the items before it, and those after it are not
tried.
",
    example: "dheg batch work.img cues.txt",
    arguments,
    run,
};

fn arguments() -> Vec<Arg> {
    vec![
        path("image", "IMAGE", "HFE image or block image"),
        path("list", "LISTFILE", "List of items"),
    ]
}

fn run(given: &ArgMatches, output: &Output) -> Result<(), Failure> {
    let from = path_of(given, "list");
    let from_name = Path::new(from).display().to_string();
    let lines = step_list::parse(&from_name, &files_io::read_list(from)?)?;
    let progress = output.progress();
    let mut disk = Disk::read_to_change(path_of(given, "image"), &progress)?;
    let list = listed(&from_name, &lines, &progress)?;
    let outcome = batch(&mut disk.blocks, &list);
    let accepted = match outcome {
        Ok(()) => lines.len(),
        Err(refused) => refused.accepted(),
    };
    if accepted > 0 {
        disk.write(output, &progress)?;
    }
    outcome.map_err(|refused| in_line(&disk, &from_name, &lines, refused))
}

/// The list for the library; a file that cannot be read is told with its line.
fn listed(from_name: &str, lines: &[Line], progress: &Progress) -> Result<BatchList, Failure> {
    let mut list = BatchList::new();
    for Line { number, step } in lines {
        step.put_on(&mut list, progress)
            .map_err(|failure| match failure {
                Failure::Io { what, error } => Failure::Io {
                    what: format!("{}: {what}", step_list::place(from_name, *number)),
                    error,
                },
                other => other,
            })?;
    }
    Ok(list)
}

/// A refusal with the line of its item.
fn in_line(disk: &Disk, from_name: &str, lines: &[Line], refused: BatchRefusal) -> Failure {
    let item = refused.item.unwrap_or_default();
    let Some(line) = item.checked_sub(1).and_then(|index| lines.get(index)) else {
        return disk.refused(refused.refusal);
    };
    let place = step_list::place(from_name, line.number);
    let count = lines.len();
    let before = match refused.accepted() {
        0 => String::from("nothing is changed"),
        1 => String::from("the item before it is done"),
        accepted => format!("the {accepted} items before it are done"),
    };
    let name = names::shown(line.step.name());
    Failure::refused(
        format!("{}: {name}", disk.path().display()),
        refused.refusal,
        Some(format!("{place}, item {item} of {count}; {before}")),
    )
}
