//! `dheg pack`

use std::ffi::OsStr;

use clap::ArgMatches;

use super::convert::{self, Conversion};
use super::several::Told;
use super::Command;
use crate::failure::Failure;
use crate::files_io;
use crate::images::packed;
use crate::output::Output;
use crate::progress::Progress;

pub const COMMAND: Command = Command {
    name: "pack",
    usage: &["IN.img OUT.hfe", "IN.img... --to DIR"],
    about: "Write block images as HFE images",
    details: "\
The block image may hold anything; the disk in it is not judged, see dheg
check. OUT.hfe is of HFE version 1. It is replaced if it is there, unless
it has the length of a block image.

With --to each IN.img becomes DIR/IN.hfe, on all processors. One that fails does
not stop the others; a last line gives the counts.
",
    example: "dheg pack games.img games.hfe",
    arguments: convert::arguments,
    run,
};

const CONVERSION: Conversion = Conversion {
    is_input: files_io::is_block_image,
    extension: "hfe",
    done: "packed",
};

fn run(given: &ArgMatches, output: &Output) -> Result<(), Failure> {
    convert::run(given, output, &CONVERSION, pack)
}

fn pack(from: &OsStr, to: &OsStr, progress: &Progress) -> Result<Told, Failure> {
    let image = files_io::read_image(from)?;
    files_io::write(to, &packed(from, &image, progress)?)?;
    Ok(Told::default())
}
