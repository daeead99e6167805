//! `dheg unpack`

use std::ffi::OsStr;
use std::path::Path;

use clap::ArgMatches;

use super::convert::{self, Conversion};
use super::several::Told;
use super::Command;
use crate::failure::Failure;
use crate::images::unpacked;
use crate::output::Output;
use crate::progress::Progress;
use crate::{editions, files_io};

pub const COMMAND: Command = Command {
    name: "unpack",
    usage: &["IN.hfe OUT.img", "IN.hfe... --to DIR"],
    about: "Read HFE images into block images",
    details: "\
IN.hfe is of HFE version 1 or 3; for version 3 a line on standard error says
so. All 1,440 sectors are judged first: if one cannot be read, nothing is
written. The disk in it is not judged, see dheg check. OUT.img is replaced if
it is there, unless it is an HFE image.

With --to each IN.hfe becomes DIR/IN.img, on all processors. One that fails does
not stop the others; a last line gives the counts.
",
    example: "dheg unpack games.hfe games.img",
    arguments: convert::arguments,
    run,
};

const CONVERSION: Conversion = Conversion {
    is_input: files_io::is_hfe,
    extension: "img",
    done: "unpacked",
};

fn run(given: &ArgMatches, output: &Output) -> Result<(), Failure> {
    convert::run(given, output, &CONVERSION, unpack)
}

fn unpack(from: &OsStr, to: &OsStr, progress: &Progress) -> Result<Told, Failure> {
    let hfe = files_io::read_hfe(from)?;
    files_io::write(to, &unpacked(from, &hfe, progress)?)?;
    let note = editions::edition_to_tell(&hfe)
        .map(|edition| format!("{}: {edition}", Path::new(from).display()));
    Ok(Told {
        note,
        ..Told::default()
    })
}
