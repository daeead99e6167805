//! `dheg poke`

use clap::{Arg, ArgMatches};
use dhegluubin::rewrite;

use super::Command;
use crate::args::{number, number_of, path, path_of};
use crate::failure::Failure;
use crate::output::Output;
use crate::{editions, files_io};

pub const COMMAND: Command = Command {
    name: "poke",
    usage: &["IN.hfe OUT.hfe TRACK SIDE R DATAFILE"],
    about: "Rewrite one sector in an HFE image",
    details: "\
Writes the 512 bytes of DATAFILE and their CRC in the data field of a sector.
All else in IN.hfe stays as it is, gaps too, and OUT.hfe is the result; it may
be IN.hfe. Other sectors may be bad. If one of them would then read otherwise,
nothing is written. IN.hfe is of HFE version 1; version 3 is not rewritten.
",
    example: "dheg poke old.hfe new.hfe 0 1 3 sector.bin",
    arguments,
    run,
};

fn arguments() -> Vec<Arg> {
    vec![
        path("from", "IN.hfe", "HFE image of version 1"),
        path("to", "OUT.hfe", "Image to write"),
        number("track", "TRACK", "Track, 0 to 79"),
        number("side", "SIDE", "Side, 0 or 1"),
        number("r", "R", "Sector, 1 to 9"),
        path("data", "DATAFILE", "File of 512 bytes"),
    ]
}

fn run(given: &ArgMatches, _output: &Output) -> Result<(), Failure> {
    let from = path_of(given, "from");
    let [track, side, r] = ["track", "side", "r"].map(|id| number_of(given, id));
    let mut hfe = files_io::read_whole_hfe(from)?;
    let data = files_io::read_sector(path_of(given, "data"))?;
    rewrite(&mut hfe, track, side, r, &data)
        .map_err(|refusal| editions::refused(from, &hfe, refusal))?;
    files_io::write(path_of(given, "to"), &hfe)
}
