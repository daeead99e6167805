//! `dheg check`

use std::ffi::OsStr;

use clap::{Arg, ArgMatches};
use dhegluubin::{check, FirstTrack, Refusal};
use serde_json::json;

use super::several::{each, Told, Words};
use super::{counts, Command};
use crate::args::{json, paths, paths_of};
use crate::failure::Failure;
use crate::images::Disk;
use crate::output::Output;
use crate::progress::Progress;

pub const COMMAND: Command = Command {
    name: "check",
    usage: &["IMAGE... [--json] [--quiet]"],
    about: "Judge the disk in each image",
    details: "\
Judges length, disk header, map, good-sector word, directory and free-sector
word; of an HFE image all sectors first, and where some cannot be read, these
are named. A line tells of each image, and how many bad blocks it has if any, on
standard error if it is refused; with several images a last line gives the
counts. With --quiet only what failed is told.
",
    example: "dheg check *.img",
    arguments,
    run,
};

fn arguments() -> Vec<Arg> {
    vec![
        paths("images", "IMAGE", "HFE images or block images"),
        json(),
    ]
}

fn run(given: &ArgMatches, output: &Output) -> Result<(), Failure> {
    let words = Words {
        done: "sound",
        unread: "not read",
    };
    each(
        &paths_of(given, "images"),
        words,
        output,
        |_, path, progress| report(path, output, progress),
    )
}

fn report(path: &OsStr, output: &Output, progress: &Progress) -> Result<Told, Failure> {
    let disk = Disk::read_or_name_bad_sectors(path, progress)?;
    let found = judged(&disk.blocks).map_err(|refusal| disk.refused(refusal))?;
    let words = counts::bad_blocks_in_words(found);
    let lines = match output.quiet {
        true => String::new(),
        false => format!("{}: sound{words}\n", disk.path().display()),
    };
    let mut json = json!({ "form": disk.form(), "sound": true });
    counts::put_into(&mut json, found);
    Ok(Told {
        lines,
        json,
        note: None,
    })
}

fn judged(image: &[u8]) -> Result<FirstTrack, Refusal> {
    check(image)?;
    counts::of(image)
}
