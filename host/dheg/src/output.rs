//! How a command tells of what it does: results on standard output, all else on
//! standard error.

use std::io::{self, IsTerminal, Write};

use clap::ArgMatches;

use crate::failure::Failure;
use crate::progress::Progress;

/// What the command line says about it.
#[derive(Clone, Copy)]
pub struct Output {
    /// Only results and failures are told.
    pub quiet: bool,
    /// Results are JSON, and so are the failures of an image.
    pub json: bool,
}

impl Output {
    /// As a command was called; not every command has both options.
    pub fn of(given: &ArgMatches) -> Output {
        let has = |id| matches!(given.try_get_one::<bool>(id), Ok(Some(true)));
        Output {
            quiet: has("quiet"),
            json: has("json"),
        }
    }

    /// Whether results are read by a person.
    pub fn at_a_terminal(&self) -> bool {
        io::stdout().is_terminal()
    }

    /// Tells of something that is neither a result nor a failure.
    pub fn note(&self, text: &str) {
        if !self.quiet {
            // Where standard error is closed there is nobody to tell.
            let _ = writeln!(io::stderr(), "dheg: {text}");
        }
    }

    /// Progress of one job.
    pub fn progress(&self) -> Progress {
        Progress::of_one(self.quiet)
    }

    /// Progress of so many jobs.
    pub fn progress_of(&self, jobs: usize) -> Progress {
        Progress::of_many(self.quiet, jobs)
    }
}

/// Writes to standard output. A closed pipe is an error as any other; the
/// `print!` macros would panic there.
pub fn print(text: &str) -> Result<(), Failure> {
    let mut out = io::stdout();
    out.write_all(text.as_bytes())
        .and_then(|()| out.flush())
        .map_err(|error| Failure::Io {
            what: String::from("standard output"),
            error,
        })
}

/// Tells of a failure. Where standard error is closed there is nobody to tell.
pub fn complain(failure: &Failure) {
    let _ = write!(io::stderr(), "{failure}");
}
