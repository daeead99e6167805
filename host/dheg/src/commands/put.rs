//! `dheg put`

use std::ffi::OsString;
use std::path::Path;

use clap::{value_parser, Arg, ArgMatches};
use dhegluubin::BatchList;

use super::Command;
use crate::args::{date, flag, name_of, name_option, path, path_of, paths, paths_of};
use crate::changes;
use crate::failure::Failure;
use crate::files_io;
use crate::images::Disk;
use crate::output::Output;
use crate::sources::{self, Source};

pub const COMMAND: Command = Command {
    name: "put",
    usage: &[
        "IMAGE NAME FILE [--date D]",
        "IMAGE FILE --name NAME [--date D]",
        "IMAGE FILE... [--files] [--date D]",
        "IMAGE DIR [--date D]",
    ],
    about: "Add files to an image",
    details: "\
Adds the bytes of FILE under NAME, which the disk keeps as it is spelled. It is
refused if a file has the name; there A to Z count as a to z. \\xHH in NAME
stands for the byte with this hexadecimal value, \\\\ for a backslash. The date is
0 unless given.

A single FILE, and three or more, are added under their own names. Two words are
NAME and FILE; with --files they are two files. It is an error if the first is
the path of another file and neither option is given.

Of a folder DIR all files are added, in order, but no folders in it and no file
whose name begins with a dot. If dheg get made the folder, its listing
dheg-listing.txt says which name and date each file has; these come first, in
the listing's order. What an entry had besides length, name and date, as the type
of a program, is not written; a line on standard error names such files.

All files are added, or none: if one is refused, the image is not changed.
",
    example: "dheg put work.img letter_txt letter.txt --date '1984-01-12 10:00:00'",
    arguments,
    run,
};

fn arguments() -> Vec<Arg> {
    vec![
        path("image", "IMAGE", "HFE image or block image"),
        // A name may be empty, for the library to refuse.
        paths("words", "FILE", "Files or folders, or NAME and FILE")
            .value_parser(value_parser!(OsString)),
        name_option("name", "Name on the disk of the only FILE").conflicts_with("files"),
        flag("files", "All words after IMAGE are files or folders"),
        date(),
    ]
}

fn run(given: &ArgMatches, output: &Output) -> Result<(), Failure> {
    let sources = sources(given, output)?;
    let progress = output.progress();
    let mut disk = Disk::read_to_change(path_of(given, "image"), &progress)?;
    let mut list = BatchList::new();
    for source in &sources {
        progress.show(&format!("adding {}", Path::new(&source.file).display()));
        list.add(
            &source.name,
            source.date,
            &files_io::read_data(&source.file)?,
        );
    }
    let names: Vec<&[u8]> = sources.iter().map(|source| &*source.name).collect();
    changes::make(&mut disk, &list, &names)?;
    if sources.is_empty() {
        return Ok(());
    }
    disk.write(output, &progress)?;
    drop(progress);
    for source in sources.iter().filter(|source| source.has_more) {
        changes::tell_what_is_lost(&disk, &source.name, output);
    }
    Ok(())
}

/// What is to be added, by the form of the command line.
fn sources(given: &ArgMatches, output: &Output) -> Result<Vec<Source>, Failure> {
    let words = paths_of(given, "words");
    let date = given.get_one("date").copied();
    let one = |name, file: &OsString| {
        let file = file.clone();
        let date = date.unwrap_or_default();
        let has_more = false;
        vec![Source {
            name,
            file,
            date,
            has_more,
        }]
    };
    match (name_of(given, "name"), &*words) {
        (Some(name), [file]) => Ok(one(name, file)),
        (Some(_), words) => Err(Failure::Usage(format!(
            "files needed with --name: 1, given: {}",
            words.len()
        ))),
        (None, [name, file]) if !given.get_flag("files") => {
            not_a_file(name, file)?;
            let name = crate::names::parse(name).map_err(Failure::Usage)?;
            Ok(one(name, file))
        }
        (None, files) => sources::of(files, date, output),
    }
}

/// Two words might be meant as two files.
fn not_a_file(name: &OsString, file: &OsString) -> Result<(), Failure> {
    if name == file || !Path::new(name).exists() {
        return Ok(());
    }
    let name = Path::new(name).display();
    Err(Failure::Usage(format!(
        "{name} is a path too: --files adds both, --name {name} is a name"
    )))
}
