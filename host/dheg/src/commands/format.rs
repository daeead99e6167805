//! `dheg format`

use std::path::Path;

use clap::{Arg, ArgMatches};
use dhegluubin::{format_bad, IMAGE_LEN};

use super::Command;
use crate::args::{flag, name_of, name_option, parse_word, path, path_of};
use crate::failure::Failure;
use crate::files_io;
use crate::output::Output;

pub const COMMAND: Command = Command {
    name: "format",
    usage: &["OUT.img [--name N] [--number K] [--bad B,B...] [--force]"],
    about: "Write a block image with an empty disk",
    details: "\
The name of the disk is empty and its number 0 unless given. No file is given a
bad block.
",
    example: "dheg format work.img --name WORK --number 7 --bad 17,18",
    arguments,
    run,
};

fn arguments() -> Vec<Arg> {
    vec![
        path("to", "OUT.img", "Block image to write"),
        name_option("name", "Name of the disk, up to 10 bytes").value_name("N"),
        Arg::new("number")
            .long("number")
            .value_name("K")
            .help("Number in the disk header, 0 to 65535")
            .value_parser(parse_word),
        Arg::new("bad")
            .long("bad")
            .value_name("B,B...")
            .help("Bad blocks of the disk, 2 to 479, in any order")
            .value_delimiter(',')
            .value_parser(parse_word),
        flag("force", "Write over OUT.img if it is there"),
    ]
}

fn run(given: &ArgMatches, _output: &Output) -> Result<(), Failure> {
    let to = path_of(given, "to");
    let name = name_of(given, "name").unwrap_or_default();
    let number = given.get_one("number").copied().unwrap_or_default();
    // Which blocks may be bad is for the library to judge.
    let bad = given.get_many::<u16>("bad");
    let bad: Vec<u16> = bad.map(|bad| bad.copied().collect()).unwrap_or_default();
    let mut image = vec![0; IMAGE_LEN];
    format_bad(&mut image, &name, number, &bad)
        .map_err(|refusal| Failure::of_image(Path::new(to), refusal))?;
    match given.get_flag("force") {
        true => files_io::write(to, &image),
        false => files_io::write_new(to, &image),
    }
}
