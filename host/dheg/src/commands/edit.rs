//! `dheg edit`: unpack, change, pack.

use std::ffi::OsString;
use std::path::Path;

use clap::{value_parser, Arg, ArgMatches};
use dhegluubin::{BatchList, Edition};

use super::Command;
use crate::args::{path, path_of, paths_of};
use crate::changes;
use crate::failure::Failure;
use crate::images::{packed, unpacked, Disk};
use crate::output::Output;
use crate::progress::Progress;
use crate::steps::{self, Step};
use crate::{editions, files_io};

pub const COMMAND: Command = Command {
    name: "edit",
    usage: &["IN.hfe OUT.hfe -- (put NAME FILE [--date D] | rm NAME)..."],
    about: "Change the files in an HFE image",
    details: "\
Unpacks IN.hfe, takes the steps after -- in order and packs the result as
OUT.hfe, which may be IN.hfe. If a step is refused, nothing is written. The
steps are those of dheg put and dheg rm, with names and dates as there, and
without patterns.

IN.hfe is of HFE version 1 or 3. OUT.hfe is of version 1: where IN.hfe is of
version 3, a line on standard error says so.
",
    example: "dheg edit old.hfe new.hfe -- rm boot put boot boot.bas put notes_txt notes.txt",
    arguments,
    run,
};

fn arguments() -> Vec<Arg> {
    vec![
        path("from", "IN.hfe", "HFE image to change"),
        path("to", "OUT.hfe", "HFE image to write"),
        Arg::new("steps")
            .value_name("STEP")
            .help("Steps: put NAME FILE [--date D], or rm NAME")
            .required(true)
            .last(true)
            .num_args(1..)
            .allow_hyphen_values(true)
            .value_parser(value_parser!(OsString)),
    ]
}

fn run(given: &ArgMatches, output: &Output) -> Result<(), Failure> {
    let (from, to) = (path_of(given, "from"), path_of(given, "to"));
    let steps = steps(&paths_of(given, "steps"))?;
    let progress = output.progress();
    let hfe = files_io::read_hfe(from)?;
    let mut disk = Disk {
        path: from.to_os_string(),
        blocks: unpacked(from, &hfe, &progress)?,
        edition: Edition::of(&hfe),
    };
    let (list, unread) = listed(&steps, &progress);
    let names: Vec<&[u8]> = steps.iter().map(Step::name).collect();
    changes::make(&mut disk, &list, &names)?;
    unread?;
    files_io::write(to, &packed(from, &disk.blocks, &progress)?)?;
    drop(progress);
    if let Some(edition) = editions::edition_to_tell(&hfe) {
        let [from, to] = [from, to].map(|path| Path::new(path).display());
        let written = Edition::Version1;
        output.note(&format!("{from}: {edition}, written to {to} as {written}"));
    }
    Ok(())
}

/// Reads all steps, before the first of them is taken.
fn steps(args: &[OsString]) -> Result<Vec<Step>, Failure> {
    let mut rest = args;
    let mut steps = Vec::new();
    while !rest.is_empty() {
        let (step, after) = steps::first(rest)?;
        steps.push(step);
        rest = after;
    }
    Ok(steps)
}

/// The steps for the library, up to the first whose file cannot be read, and why
/// not: a step before it may be refused, which is then told instead.
fn listed(steps: &[Step], progress: &Progress) -> (BatchList, Result<(), Failure>) {
    let mut list = BatchList::new();
    let mut put = steps.iter().map(|step| step.put_on(&mut list, progress));
    let unread = put.find_map(Result::err).map_or(Ok(()), Err);
    (list, unread)
}

#[cfg(test)]
mod tests {
    use super::*;

    fn line(text: &str) -> Vec<OsString> {
        text.split(' ').map(OsString::from).collect()
    }

    #[test]
    fn steps_in_order() {
        let args = line("put put rm --date 5 rm rm put --date --date rm a\\x00");
        let names: Vec<Vec<u8>> = steps(&args)
            .unwrap()
            .iter()
            .map(|step| step.name().to_vec())
            .collect();
        assert_eq!(names, [&b"put"[..], b"rm", b"--date", b"a\0"]);
    }

    #[test]
    fn wrong_steps() {
        for text in [
            "put a b c",
            "rm a b",
            "rm a rm",
            "put a b --date 1 --date 2",
            "rm a --date 1",
        ] {
            assert_eq!(steps(&line(text)).unwrap_err().status(), 2, "{text}");
        }
    }
}
