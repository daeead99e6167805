//! The commands, a file each.

mod batch;
mod check;
mod completion;
mod convert;
mod counts;
mod cp;
mod edit;
mod format;
mod get;
mod ls;
mod man;
mod map;
mod pack;
mod place;
mod poke;
mod put;
mod rm;
mod several;
mod unpack;

use clap::{Arg, ArgMatches};

use crate::args;
use crate::failure::Failure;
use crate::output::Output;

/// A command: its words for the reader, and what it does.
pub struct Command {
    pub name: &'static str,
    /// What stands after the name; a line for each way to call it.
    pub usage: &'static [&'static str],
    /// In one line.
    pub about: &'static str,
    /// In full, with lines that end.
    pub details: &'static str,
    /// A command line that works.
    pub example: &'static str,
    pub arguments: fn() -> Vec<Arg>,
    pub run: fn(&ArgMatches, &Output) -> Result<(), Failure>,
}

/// In the order in which the overview shows them.
const ALL: [&Command; 16] = [
    &unpack::COMMAND,
    &pack::COMMAND,
    &edit::COMMAND,
    &poke::COMMAND,
    &format::COMMAND,
    &check::COMMAND,
    &ls::COMMAND,
    &map::COMMAND,
    &get::COMMAND,
    &put::COMMAND,
    &cp::COMMAND,
    &rm::COMMAND,
    &batch::COMMAND,
    &place::COMMAND,
    &completion::COMMAND,
    &man::COMMAND,
];

/// In one line, what the tool is for.
const ABOUT: &str = "QL double-density disks in HFE images and block images";

/// What holds for all commands.
const COMMON: &str = r"An IMAGE is an HFE image or a block image of 737280 bytes; the letters at its
start tell which. HFE images of version 1 and of version 3 are read; those that
are written are of version 1. A changed HFE image is unpacked and packed again;
where it was of version 3, a line on standard error says so.

Names of files and disks are text; \xHH stands for the byte with this
hexadecimal value and \\ for a backslash. Where a command takes patterns, *
stands for any bytes and ? for one; \x2A and \x3F are these two themselves.
Whatever begins with a dash is an option; after -- nothing is.

In the names of files on a disk A to Z count as a to z: Reel_one and REEL_ONE
are one name. The disk keeps the spelling that the file was put with.

Dates are QL dates, seconds since 1961-01-01 00:00:00. They are given as that
number, as YYYY-MM-DD HH:MM:SS or as now (UTC).

A file is written under a temporary name beside its place, then renamed; when
a command fails, what was there before is unchanged, but for the items of a
batch before one that is refused. A device or a pipe is written directly.

Exit status: 0 done, 1 refused, 2 wrong command line or list, 3 a file could not
be read or written.";

/// The command of this name.
pub fn named(name: &str) -> Option<&'static Command> {
    ALL.into_iter().find(|command| command.name == name)
}

/// The whole command line.
pub fn tool() -> clap::Command {
    clap::Command::new("dheg")
        .version(env!("CARGO_PKG_VERSION"))
        .about(ABOUT)
        .after_help(format!("{COMMON}\n\nExample: {}", edit::COMMAND.example))
        .subcommand_required(true)
        .arg(
            args::flag("quiet", "Tell only of results and failures")
                .short('q')
                .global(true),
        )
        .subcommands(ALL.map(Command::reader))
}

impl Command {
    /// The lines that show how it is called.
    pub fn usage(&self) -> String {
        let lines = self.usage.iter().map(|line| {
            let line = format!("dheg {} {line}", self.name);
            line.trim_end().to_string()
        });
        format!("Usage: {}", lines.collect::<Vec<_>>().join("\n       "))
    }

    /// What reads its command line, and has its help.
    fn reader(&self) -> clap::Command {
        let usage = self.usage();
        let usage = usage.strip_prefix("Usage: ").unwrap_or(&usage).to_string();
        clap::Command::new(self.name)
            .about(self.about)
            .override_usage(usage)
            .after_help(format!("{}\nExample: {}", self.details, self.example))
            .args((self.arguments)())
    }
}
