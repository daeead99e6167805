//! `dheg completion`

use clap::{value_parser, Arg, ArgMatches};
use clap_complete::{generate, Shell};

use super::Command;
use crate::failure::Failure;
use crate::output::{print, Output};

pub const COMMAND: Command = Command {
    name: "completion",
    usage: &["SHELL"],
    about: "Print a completion script for a shell",
    details: "\
The shell reads it at its start: for bash, for instance, as a file in a folder
of completions, or by source <(dheg completion bash).
",
    example: "dheg completion bash",
    arguments,
    run,
};

fn arguments() -> Vec<Arg> {
    vec![Arg::new("shell")
        .value_name("SHELL")
        .help("Name of the shell")
        .required(true)
        .value_parser(value_parser!(Shell))]
}

fn run(given: &ArgMatches, _output: &Output) -> Result<(), Failure> {
    let mut script = Vec::new();
    if let Some(&shell) = given.get_one::<Shell>("shell") {
        generate(shell, &mut super::tool(), "dheg", &mut script);
    }
    print(&String::from_utf8_lossy(&script))
}
