//! `dheg cp`

use clap::{Arg, ArgMatches};
use dhegluubin::BatchList;

use super::get::data;
use super::Command;
use crate::args::{name, name_of, path, path_of};
use crate::changes;
use crate::entries;
use crate::failure::Failure;
use crate::images::Disk;
use crate::output::Output;

pub const COMMAND: Command = Command {
    name: "cp",
    usage: &["IMAGE1 NAME1 IMAGE2 [NAME2]"],
    about: "Copy a file from one image to another",
    details: "\
Adds the file NAME1 of IMAGE1 to IMAGE2, with its date, as NAME2 or, if that is
not given, by the name that the disk in IMAGE1 keeps. The two may be the same
image. It is refused if a file of IMAGE2 has the name. What its entry has besides
length, name and date, as the type of a program, is not written; a line on
standard error says so.
",
    example: "dheg cp games.img boot work.img old_boot",
    arguments,
    run,
};

fn arguments() -> Vec<Arg> {
    vec![
        path(
            "from",
            "IMAGE1",
            "HFE image or block image that has the file",
        ),
        name("name", "File on its disk").value_name("NAME1"),
        path("to", "IMAGE2", "HFE image or block image that gets it"),
        name("new", "Name of the copy")
            .value_name("NAME2")
            .required(false),
    ]
}

fn run(given: &ArgMatches, output: &Output) -> Result<(), Failure> {
    let progress = output.progress();
    let name = name_of(given, "name").unwrap_or_default();
    let from = Disk::read(path_of(given, "from"), &progress)?;
    let data = data(&from, &name)?;
    let files = entries::of(&from.blocks).map_err(|refusal| from.refused(refusal))?;
    // The library has found the file, so that there is an entry of its name.
    let entry = files
        .iter()
        .find(|entry| entry.name.eq_ignore_ascii_case(&name));
    let (kept, date) = entry.map_or((&name, 0), |entry| (&entry.name, entry.date));
    let new = name_of(given, "new").unwrap_or_else(|| kept.clone());
    let mut to = Disk::read_to_change(path_of(given, "to"), &progress)?;
    let mut list = BatchList::new();
    list.add(&new, date, &data);
    changes::make(&mut to, &list, &[&*new])?;
    to.write(output, &progress)?;
    drop(progress);
    if entry.is_some_and(|entry| entries::has_more(&entry.bytes)) {
        changes::tell_what_is_lost(&to, &new, output);
    }
    Ok(())
}
