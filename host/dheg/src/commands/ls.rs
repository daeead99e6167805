//! `dheg ls`

use std::ffi::OsStr;

use clap::{Arg, ArgMatches};
use dhegluubin::{FirstTrack, Refusal};
use serde_json::{json, Value};

use super::several::{each, Told, Words};
use super::{counts, Command};
use crate::args::{json, paths, paths_of, patterns_of, patterns_option};
use crate::entries::{self, Entry};
use crate::failure::Failure;
use crate::images::Disk;
use crate::output::Output;
use crate::patterns::Pattern;
use crate::progress::Progress;
use crate::{dates, names};

pub const COMMAND: Command = Command {
    name: "ls",
    usage: &["IMAGE... [--name PATTERN]... [--json] [--quiet]"],
    about: "List the files in each image",
    details: "\
A line tells of the disk, with its bad blocks if it has any, then one of each
file: bytes of data, date, name in the spelling that the disk keeps. At a
terminal the columns have a heading. An image that is refused is told of on
standard error, with its bad sectors where some of an HFE image cannot be read;
with several images a last line gives the counts.
",
    example: "dheg ls work.img games.img",
    arguments,
    run,
};

/// The columns of the files.
const COLUMNS: &str = "   BYTES  DATE                 NAME\n";

fn arguments() -> Vec<Arg> {
    vec![
        paths("images", "IMAGE", "HFE images or block images"),
        patterns_option(
            "name",
            "List only the files whose names match; may be repeated",
        ),
        json(),
    ]
}

fn run(given: &ArgMatches, output: &Output) -> Result<(), Failure> {
    let words = Words {
        done: "listed",
        unread: "not read",
    };
    let patterns = patterns_of(given, "name");
    each(
        &paths_of(given, "images"),
        words,
        output,
        |_, path, progress| report(path, &patterns, output, progress),
    )
}

fn report(
    path: &OsStr,
    patterns: &[Pattern],
    output: &Output,
    progress: &Progress,
) -> Result<Told, Failure> {
    let disk = Disk::read_or_name_bad_sectors(path, progress)?;
    let (counts, files) = found(&disk.blocks).map_err(|refusal| disk.refused(refusal))?;
    let heading = heading(&disk.blocks, counts, files.len());
    let wanted = |entry: &&Entry| {
        patterns.is_empty() || patterns.iter().any(|pattern| pattern.matches(&entry.name))
    };
    let shown: Vec<&Entry> = files.iter().filter(wanted).collect();
    let mut lines = format!("{}: {heading}\n", disk.path().display());
    if output.at_a_terminal() && !shown.is_empty() {
        lines.push_str(COLUMNS);
    }
    lines.extend(shown.iter().map(|entry| line(entry)));
    let mut json = json!({
        "form": disk.form(),
        "name": disk_name(&disk.blocks),
        "number": disk_number(&disk.blocks),
        "files": shown.iter().map(|entry| file_json(entry)).collect::<Vec<_>>(),
    });
    counts::put_into(&mut json, counts);
    Ok(Told {
        lines,
        json,
        note: None,
    })
}

fn found(image: &[u8]) -> Result<(FirstTrack, Vec<Entry>), Refusal> {
    let files = entries::of(image)?;
    Ok((counts::of(image)?, files))
}

/// Name and number of the disk, count of files, free sectors, bad blocks.
fn heading(image: &[u8], counts: FirstTrack, files: usize) -> String {
    let plural = if files == 1 { "" } else { "s" };
    format!(
        "disk \"{}\", number {}, {files} file{plural}, {} of {} sectors free{}",
        disk_name(image),
        disk_number(image),
        counts.free,
        counts.good,
        counts::bad_blocks_in_words(counts)
    )
}

fn disk_name(image: &[u8]) -> String {
    let name = image.get(4..14).unwrap_or_default();
    names::shown(name.trim_ascii_end())
}

fn disk_number(image: &[u8]) -> u32 {
    entries::value(image, 14..16)
}

/// The line of a file.
fn line(entry: &Entry) -> String {
    let date = dates::shown(entry.date);
    format!(
        "{:>8}  {date}  {}\n",
        entry.length,
        names::shown(&entry.name)
    )
}

/// The same as JSON.
fn file_json(entry: &Entry) -> Value {
    json!({
        "name": names::shown(&entry.name),
        "bytes": entry.length,
        "date": dates::shown(entry.date),
        "seconds": entry.date,
    })
}
