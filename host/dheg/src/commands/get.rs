//! `dheg get`

use std::ffi::{OsStr, OsString};
use std::fs;
use std::path::Path;

use clap::{Arg, ArgMatches};
use dhegluubin::{read, Refusal, IMAGE_LEN};

use super::Command;
use crate::args::{flag, path, path_of, path_option, patterns};
use crate::changes::{in_file, matching};
use crate::entries::{self, Entry};
use crate::failure::Failure;
use crate::host_names::{host_name, LISTING};
use crate::images::Disk;
use crate::output::Output;
use crate::patterns::Pattern;
use crate::progress::Progress;
use crate::{files_io, listing};

pub const COMMAND: Command = Command {
    name: "get",
    usage: &[
        "IMAGE NAME OUT",
        "IMAGE PATTERN DIR [--force]",
        "IMAGE --all DIR [--force]",
    ],
    about: "Copy files out of an image",
    details: "\
Writes the data of the file NAME to OUT, which is replaced if it is there.
A to Z in NAME count as a to z. \\xHH stands for the byte with this hexadecimal
value, \\\\ for a backslash.

Where NAME has a * or a ?, all files that match are written to the folder DIR,
and with --all all files of the disk are. The folder is made if it is not there.
A letter, a digit, _, - and . stand for themselves in the names of the files
there, %HH for every other byte. The listing dheg-listing.txt beside them has a
line for each: its file, bytes, date, name on the disk and entry; lines of an
earlier call stay. dheg put IMAGE DIR puts the files on a disk with these names
and dates. Nothing is written where a file is there that the listing does not
name, unless --force is given.
",
    example: "dheg get work.img letter_txt letter.txt",
    arguments,
    run,
};

fn arguments() -> Vec<Arg> {
    vec![
        path("image", "IMAGE", "HFE image or block image"),
        patterns("name", "NAME", "File on the disk, or a pattern")
            .required(false)
            .required_unless_present("all"),
        path("out", "OUT", "File to write, or a folder")
            .required(false)
            .required_unless_present("all"),
        path_option("all", "DIR", "Folder for all files of the disk").conflicts_with("name"),
        flag("force", "Write over files that are in DIR"),
    ]
}

fn run(given: &ArgMatches, output: &Output) -> Result<(), Failure> {
    let progress = output.progress();
    let disk = Disk::read(path_of(given, "image"), &progress)?;
    let force = given.get_flag("force");
    if let Some(folder) = given.get_one::<OsString>("all") {
        let all = entries::of(&disk.blocks).map_err(|refusal| disk.refused(refusal))?;
        return files(&disk, &all, folder, force, &progress);
    }
    let pattern = given.get_one("name").cloned().unwrap_or_else(Pattern::all);
    let out = path_of(given, "out");
    match pattern.one_name() {
        Some(name) => {
            files_io::not_the_input(&disk.path, out)?;
            files_io::write(out, &data(&disk, &name)?)
        }
        None => files(&disk, &matching(&disk, &pattern)?, out, force, &progress),
    }
}

/// The data of a file.
pub fn data(disk: &Disk, name: &[u8]) -> Result<Vec<u8>, Failure> {
    // A file stands in the image, so that it never needs more than that has.
    let mut data = vec![0; IMAGE_LEN];
    let count = read(&disk.blocks, name, &mut data).map_err(|refusal| match refusal {
        // What is wrong is not in the file but in the whole image.
        Refusal::Length { .. } => disk.refused(refusal),
        _ => in_file(&disk.path, name, refusal),
    })?;
    data.truncate(count);
    Ok(data)
}

/// Writes files of a disk, and their listing, to a folder. Nothing is written
/// where a file would be lost.
fn files(
    disk: &Disk,
    entries: &[Entry],
    folder: &OsStr,
    force: bool,
    progress: &Progress,
) -> Result<(), Failure> {
    let folder = Path::new(folder);
    let before = listing::read(folder)?;
    let written_before = listing::files(&before);
    for entry in entries {
        let name = OsString::from(host_name(&entry.name));
        let file = folder.join(&name);
        files_io::not_the_input(&disk.path, file.as_os_str())?;
        if !force && !written_before.contains(&name) {
            files_io::not_there(file.as_os_str())?;
        }
    }
    fs::create_dir_all(folder).map_err(|error| Failure::io(folder, error))?;
    for entry in entries {
        let file = folder.join(host_name(&entry.name));
        progress.show(&format!("writing {}", file.display()));
        files_io::write(file.as_os_str(), &data(disk, &entry.name)?)?;
    }
    // What an earlier call wrote to the folder keeps its lines.
    let kept = listing::kept(&before, entries, |file| folder.join(file).exists());
    let listing = listing::text(&kept, entries);
    files_io::write(folder.join(LISTING).as_os_str(), listing.as_bytes())
}
