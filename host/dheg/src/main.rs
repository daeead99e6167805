//! `dheg`, the bench tool: QL disks in HFE images and block images, from the
//! command line.
//!
//! What is judged and what is written is the proved library's; this program
//! reads the command line, the files and the clock, and tells the outcome.

#![forbid(unsafe_code)]
// No input may end in a panic, so whatever could panic is pointed out.
#![cfg_attr(
    not(test),
    warn(
        clippy::expect_used,
        clippy::indexing_slicing,
        clippy::panic,
        clippy::unwrap_used
    )
)]

mod args;
mod bad_sectors;
mod blocks;
mod changes;
mod commands;
mod dates;
mod editions;
mod entries;
mod failure;
mod files_io;
mod host_names;
mod images;
mod listing;
mod map_svg;
mod map_text;
mod names;
mod output;
mod parallel;
mod patterns;
mod progress;
mod sources;
mod step_list;
mod steps;

use std::process::ExitCode;

use failure::Failure;
use output::{complain, print, Output};

fn main() -> ExitCode {
    match run() {
        Ok(()) => ExitCode::SUCCESS,
        Err(failure) => {
            complain(&failure);
            ExitCode::from(failure.status())
        }
    }
}

/// Does what the command line asks for.
fn run() -> Result<(), Failure> {
    let given = match commands::tool().try_get_matches() {
        Ok(given) => given,
        Err(error) => return wrong_or_help(&error),
    };
    let Some((name, given)) = given.subcommand() else {
        return Err(Failure::Usage(String::from("a command is needed")));
    };
    match commands::named(name) {
        Some(command) => (command.run)(given, &Output::of(given))
            .map_err(|failure| failure.in_command(name, &command.usage())),
        None => Err(Failure::Usage(format!("there is no command {name}"))),
    }
}

/// A command line that asks for help or the version, or a wrong one.
fn wrong_or_help(error: &clap::Error) -> Result<(), Failure> {
    let text = error.to_string();
    if !error.use_stderr() {
        return print(&text);
    }
    let words = text.strip_prefix("error: ").unwrap_or(&text);
    Err(Failure::Usage(words.trim_end().to_string()))
}
