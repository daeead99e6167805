//! `dheg map`

use std::ffi::{OsStr, OsString};

use clap::{Arg, ArgMatches};
use serde_json::{json, Value};

use super::several::{json_failure, json_line};
use super::Command;
use crate::args::{flag, path, path_of, path_option};
use crate::blocks::{self, Blocks, Kind};
use crate::failure::Failure;
use crate::images::Disk;
use crate::output::{print, Output};
use crate::{files_io, map_svg, map_text, names};

pub const COMMAND: Command = Command {
    name: "map",
    usage: &["IMAGE [--svg FILE] [--json]"],
    about: "Draw the blocks of the disk in an image",
    details: "\
Draws the 480 blocks, 48 in a row with the number of the first before it: M is
the map with the disk header, D the directory, # a file, . free and x bad. A last
line has the counts.

With --svg the picture is written to FILE: a square for each block, in one colour
for each file, and a legend with the names of the files.
",
    example: "dheg map work.img --svg work.svg",
    arguments,
    run,
};

fn arguments() -> Vec<Arg> {
    vec![
        path("image", "IMAGE", "HFE image or block image"),
        path_option("svg", "FILE", "Write a picture to FILE, and no characters"),
        flag(
            "json",
            "Print a line of JSON, where the image is refused too",
        ),
    ]
}

fn run(given: &ArgMatches, output: &Output) -> Result<(), Failure> {
    let image = path_of(given, "image");
    let svg = given.get_one::<OsString>("svg").map(OsString::as_os_str);
    if let Some(svg) = svg {
        files_io::not_the_input(image, svg)?;
    }
    let outcome = read(image, output).and_then(|(disk, blocks)| show(&disk, &blocks, svg, output));
    match outcome {
        Err(failure) if output.json => {
            print(&json_failure(image, &failure))?;
            Err(failure.told())
        }
        outcome => outcome,
    }
}

fn read(image: &OsStr, output: &Output) -> Result<(Disk, Blocks), Failure> {
    let progress = output.progress();
    let disk = Disk::read_or_name_bad_sectors(image, &progress)?;
    let blocks = blocks::of(&disk.blocks).map_err(|refusal| disk.refused(refusal))?;
    Ok((disk, blocks))
}

fn show(disk: &Disk, blocks: &Blocks, svg: Option<&OsStr>, output: &Output) -> Result<(), Failure> {
    if let Some(svg) = svg {
        let title = disk.path().display().to_string();
        files_io::write(svg, map_svg::drawn(&title, blocks).as_bytes())?;
    }
    match (output.json, svg) {
        (true, _) => print(&json_line(&disk.path, json(disk, blocks))),
        (false, None) => print(&map_text::drawn(blocks)),
        (false, Some(_)) => Ok(()),
    }
}

/// Every block with its kind; a file's with the index of its file and its part.
fn json(disk: &Disk, blocks: &Blocks) -> Value {
    let kinds = blocks.kinds.iter().zip(&blocks.parts);
    let files = blocks.files.iter().enumerate();
    json!({
        "form": disk.form(),
        "blocks": kinds.map(|(&kind, &part)| block_json(kind, part)).collect::<Vec<_>>(),
        "files": files.map(|(index, file)| json!({
            "name": names::shown(&file.name),
            "bytes": file.length,
            "blocks": blocks.count(Kind::File(index)),
        })).collect::<Vec<_>>(),
    })
}

fn block_json(kind: Kind, part: usize) -> Value {
    match kind {
        Kind::Map => json!({ "kind": "map" }),
        Kind::Directory => json!({ "kind": "directory", "part": part }),
        Kind::File(file) => json!({ "kind": "file", "file": file, "part": part }),
        Kind::Free => json!({ "kind": "free" }),
        Kind::Bad => json!({ "kind": "bad" }),
    }
}
