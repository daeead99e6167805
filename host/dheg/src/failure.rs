//! What can go wrong, its words and its exit status.

use std::fmt;
use std::io;
use std::path::Path;

use dhegluubin::Refusal;
use serde_json::{json, Map, Value};

/// Exit status where the library refused.
const REFUSED: u8 = 1;
/// Exit status where the command line, or a list that it names, is wrong.
const USAGE: u8 = 2;
/// Exit status where a file could not be read or written.
const IO: u8 = 3;

/// Why a command was not done.
#[derive(Debug)]
pub enum Failure {
    /// The library refused.
    Refused(Box<Refused>),
    /// The command line is wrong. The text ends in a hint once the command
    /// is known.
    Usage(String),
    /// A file could not be read or written.
    Io { what: String, error: io::Error },
    /// Several images were named and some failed, each with its own message.
    Several {
        /// Whether one of them could not be read or written.
        unread: bool,
    },
}

/// A refusal, and what it is about.
#[derive(Debug)]
pub struct Refused {
    /// The image, and the file in it where there is one.
    pub what: String,
    pub refusal: Refusal,
    /// What helps to understand it.
    pub note: Option<String>,
    /// All bad sectors, where the refusal names the first of them.
    pub bad_sectors: Option<Details>,
}

/// What is told below a refusal.
#[derive(Debug)]
pub struct Details {
    /// Whole lines.
    pub lines: String,
    pub json: Value,
}

impl Failure {
    /// A refusal of something.
    pub fn refused(what: String, refusal: Refusal, note: Option<String>) -> Failure {
        Failure::Refused(Box::new(Refused {
            what,
            refusal,
            note,
            bad_sectors: None,
        }))
    }

    /// A refusal that concerns this image.
    pub fn of_image(image: &Path, refusal: Refusal) -> Failure {
        Failure::refused(image.display().to_string(), refusal, None)
    }

    /// Reading or writing of this file failed.
    pub fn io(path: &Path, error: io::Error) -> Failure {
        Failure::Io {
            what: path.display().to_string(),
            error,
        }
    }

    /// The exit status.
    pub fn status(&self) -> u8 {
        match self {
            Failure::Refused(_) | Failure::Several { unread: false } => REFUSED,
            Failure::Usage(_) => USAGE,
            Failure::Io { .. } | Failure::Several { unread: true } => IO,
        }
    }

    /// The same exit status, where all was told.
    pub fn told(&self) -> Failure {
        Failure::Several {
            unread: self.status() == IO,
        }
    }

    /// A usage failure gets the command's name and usage.
    pub fn in_command(self, name: &str, usage: &str) -> Failure {
        match self {
            Failure::Usage(text) => Failure::Usage(format!("{name}: {text}\n{usage}")),
            other => other,
        }
    }

    /// What is told of it in JSON: a member `refused` or `failed`.
    pub fn json(&self) -> (&'static str, Value) {
        match self {
            Failure::Refused(refused) => ("refused", refused.json()),
            Failure::Io { error, .. } => ("failed", json!(error.to_string())),
            Failure::Usage(text) => ("failed", json!(text)),
            Failure::Several { .. } => ("failed", Value::Null),
        }
    }
}

impl Refused {
    /// Number, places and words, and all bad sectors where they are known.
    fn json(&self) -> Value {
        let [number, first, second, third] = self.refusal.reply().parts();
        let words = self.refusal.to_string();
        let words = words.split_once(": ").map_or(&*words, |(_, words)| words);
        let mut refused = Map::new();
        let mut put = |member: &str, value| refused.insert(String::from(member), value);
        put("number", json!(number));
        put("places", json!([first, second, third]));
        put("words", json!(words));
        if let Some(note) = &self.note {
            put("note", json!(note));
        }
        if let Some(bad_sectors) = &self.bad_sectors {
            put("bad_sectors", bad_sectors.json.clone());
        }
        Value::Object(refused)
    }
}

/// Whole lines for standard error; none where all was told before.
impl fmt::Display for Failure {
    fn fmt(&self, f: &mut fmt::Formatter<'_>) -> fmt::Result {
        match self {
            Failure::Refused(refused) => refused.fmt(f),
            Failure::Usage(text) => writeln!(f, "dheg: {text}"),
            Failure::Io { what, error } => writeln!(f, "dheg: {what}: {error}"),
            Failure::Several { .. } => Ok(()),
        }
    }
}

impl fmt::Display for Refused {
    fn fmt(&self, f: &mut fmt::Formatter<'_>) -> fmt::Result {
        write!(f, "dheg: {}: {}", self.what, self.refusal)?;
        match &self.note {
            Some(note) => writeln!(f, " ({note})")?,
            None => writeln!(f)?,
        }
        match &self.bad_sectors {
            Some(bad_sectors) => f.write_str(&bad_sectors.lines),
            None => Ok(()),
        }
    }
}
