//! `dheg place`

use clap::{Arg, ArgMatches};
use dhegluubin::place;
use serde_json::json;

use super::Command;
use crate::args::{flag, number, number_of};
use crate::failure::Failure;
use crate::output::{print, Output};

pub const COMMAND: Command = Command {
    name: "place",
    usage: &["BLOCK SECTOR [--json]"],
    about: "Tell where a sector of a block stands",
    details: "\
Prints the image sector, counted in 512 bytes from the start of a block image.
BLOCK is 0 to 479, SECTOR is 0 to 2.
",
    example: "dheg place 6 2",
    arguments,
    run,
};

fn arguments() -> Vec<Arg> {
    vec![
        number("block", "BLOCK", "Block, 0 to 479"),
        number("sector", "SECTOR", "Sector of the block, 0 to 2"),
        flag("json", "Print a line of JSON, where it is refused too"),
    ]
}

fn run(given: &ArgMatches, output: &Output) -> Result<(), Failure> {
    let (block, sector) = (number_of(given, "block"), number_of(given, "sector"));
    let what = format!("block {block}, sector {sector}");
    let found = place(block, sector).map_err(|refusal| Failure::refused(what, refusal, None));
    let line = |member: &str, value| {
        let line = json!({ "block": block, "sector": sector, member: value });
        print(&format!("{line}\n"))
    };
    match (found, output.json) {
        (Ok(place), false) => print(&format!("{place}\n")),
        (Ok(place), true) => line("image_sector", json!(place)),
        (Err(failure), false) => Err(failure),
        (Err(failure), true) => {
            let (member, value) = failure.json();
            line(member, value)?;
            Err(failure.told())
        }
    }
}
