//! `dheg man`: the manual page, from the text of the help.

use clap::{Arg, ArgMatches};
use roff::{bold, italic, roman, Inline, Roff};

use super::{edit, Command, ABOUT, ALL, COMMON};
use crate::failure::Failure;
use crate::output::{print, Output};

pub const COMMAND: Command = Command {
    name: "man",
    usage: &[""],
    about: "Print the manual page dheg.1",
    details: "\
The page has the same text as the help of the tool and of each command.
",
    example: "dheg man",
    arguments,
    run,
};

fn arguments() -> Vec<Arg> {
    Vec::new()
}

fn run(_given: &ArgMatches, _output: &Output) -> Result<(), Failure> {
    print(&page())
}

/// The page in the language of man pages. The version stands in place of a date,
/// so that the same text gives the same page.
fn page() -> String {
    let mut page = Roff::new();
    let version = concat!("dheg ", env!("CARGO_PKG_VERSION"));
    page.control("TH", ["dheg", "1", version]);
    page.control("SH", ["NAME"]);
    page.text([roman(format!("dheg - {ABOUT}"))]);
    page.control("SH", ["SYNOPSIS"]);
    page.text([bold("dheg"), roman(" [OPTIONS] COMMAND ...")]);
    page.control("SH", ["DESCRIPTION"]);
    paragraphs(&mut page, COMMON);
    page.control("SH", ["OPTIONS"]);
    let mut tool = super::tool();
    // Help and version are added here.
    tool.build();
    let options = tool.get_arguments();
    options.for_each(|option| argument(&mut page, option));
    page.control("SH", ["COMMANDS"]);
    ALL.into_iter().for_each(|part| command(&mut page, part));
    page.control("SH", ["EXAMPLE"]);
    page.text([roman(edit::COMMAND.example)]);
    page.to_roff()
}

/// A command: how it is called, its arguments, what it does.
fn command(page: &mut Roff, command: &Command) {
    page.control("SS", [command.name]);
    for line in command.usage {
        page.text([
            bold(format!("dheg {}", command.name)),
            roman(format!(" {line}")),
        ]);
        page.control("br", []);
    }
    page.control("PP", []);
    page.text([roman(format!("{}.", command.about))]);
    (command.arguments)()
        .iter()
        .for_each(|part| argument(page, part));
    page.control("PP", []);
    paragraphs(page, command.details.trim_end());
    page.control("PP", []);
    page.text([roman(format!("Example: {}", command.example))]);
}

/// An argument or an option, and what it is.
fn argument(page: &mut Roff, argument: &Arg) {
    let mut title: Vec<Inline> = Vec::new();
    if let Some(short) = argument.get_short() {
        title.push(bold(format!("-{short}, ")));
    }
    if let Some(long) = argument.get_long() {
        title.push(bold(format!("--{long}")));
        title.push(roman(" "));
    }
    let takes_value = argument
        .get_num_args()
        .is_none_or(|count| count.takes_values());
    if let (true, Some(names)) = (takes_value, argument.get_value_names()) {
        title.extend(names.iter().map(|name| italic(name.to_string())));
    }
    page.control("TP", []);
    page.text(title);
    let help = argument.get_help().map(ToString::to_string);
    page.text([roman(help.unwrap_or_default())]);
}

/// Paragraphs with empty lines between them. Lines that begin with two spaces
/// stay as they are.
fn paragraphs(page: &mut Roff, text: &str) {
    for (at, paragraph) in text.split("\n\n").enumerate() {
        if at > 0 {
            page.control("PP", []);
        }
        let fixed = paragraph.starts_with("  ");
        if fixed {
            page.control("nf", []);
        }
        page.text([roman(paragraph)]);
        if fixed {
            page.control("fi", []);
        }
    }
}

#[cfg(test)]
mod tests {
    use super::*;

    /// The page that the repository has is the one that the tool prints.
    #[test]
    fn page_is_kept() {
        assert!(
            page() == include_str!("../../dheg.1"),
            "write what dheg man prints to host/dheg/dheg.1"
        );
    }
}
