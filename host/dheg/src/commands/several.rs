//! One command over several images: lines for each, a line for all.

use std::ffi::{OsStr, OsString};
use std::path::Path;

use serde_json::{json, Value};

use crate::failure::Failure;
use crate::output::{complain, print, Output};
use crate::parallel::in_order;
use crate::progress::Progress;

/// What is told of an image with which a job was done.
#[derive(Default)]
pub struct Told {
    /// Lines for standard output.
    pub lines: String,
    /// The same as JSON: the members of an object.
    pub json: Value,
    /// What is neither a result nor a failure.
    pub note: Option<String>,
}

/// Words of the last line.
pub struct Words {
    pub done: &'static str,
    pub unread: &'static str,
}

/// How many images ended how.
#[derive(Default)]
struct Counts {
    done: usize,
    refused: usize,
    unread: usize,
}

/// Does the job with each image, on all processors, and tells of each in the
/// order of the images. One that fails does not stop the others; the worst
/// failure decides the exit status.
pub fn each(
    images: &[OsString],
    words: Words,
    output: &Output,
    job: impl Fn(usize, &OsStr, &Progress) -> Result<Told, Failure> + Sync,
) -> Result<(), Failure> {
    let progress = output.progress_of(images.len());
    let path = |index: usize| {
        images
            .get(index)
            .map(OsString::as_os_str)
            .unwrap_or_default()
    };
    let mut counts = Counts::default();
    in_order(
        images.len(),
        |index| {
            let outcome = job(index, path(index), &progress);
            progress.done(&Path::new(path(index)).display().to_string());
            outcome
        },
        |index, outcome| progress.aside(|| counts.tell(path(index), outcome, output)),
    )?;
    drop(progress);
    if images.len() > 1 && !output.quiet && !output.json {
        print(&counts.line(images.len(), words))?;
    }
    counts.result()
}

/// A line of JSON about an image.
pub fn json_line(image: &OsStr, members: Value) -> String {
    let mut line = json!({ "image": Path::new(image).display().to_string() });
    if let (Some(line), Value::Object(members)) = (line.as_object_mut(), members) {
        line.extend(members);
    }
    format!("{line}\n")
}

/// The line of JSON about an image with which a job failed.
pub fn json_failure(image: &OsStr, failure: &Failure) -> String {
    let (member, value) = failure.json();
    json_line(image, json!({ member: value }))
}

impl Counts {
    /// Prints an outcome and counts it. Only a failure to print ends here.
    fn tell(
        &mut self,
        image: &OsStr,
        outcome: Result<Told, Failure>,
        output: &Output,
    ) -> Result<(), Failure> {
        match outcome {
            Ok(told) => {
                self.done += 1;
                match output.json {
                    true => print(&json_line(image, told.json))?,
                    false => print(&told.lines)?,
                }
                if let Some(note) = told.note {
                    output.note(&note);
                }
                Ok(())
            }
            Err(failure) => {
                match failure {
                    Failure::Refused(_) => self.refused += 1,
                    _ => self.unread += 1,
                }
                match output.json {
                    true => print(&json_failure(image, &failure)),
                    false => {
                        complain(&failure);
                        Ok(())
                    }
                }
            }
        }
    }

    fn line(&self, all: usize, words: Words) -> String {
        let Counts {
            done,
            refused,
            unread,
        } = self;
        format!(
            "{all} images: {done} {}, {refused} refused, {unread} {}\n",
            words.done, words.unread
        )
    }

    fn result(&self) -> Result<(), Failure> {
        match self {
            Counts {
                refused: 0,
                unread: 0,
                ..
            } => Ok(()),
            Counts { unread, .. } => Err(Failure::Several {
                unread: *unread > 0,
            }),
        }
    }
}
