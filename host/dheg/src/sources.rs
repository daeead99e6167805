//! Files of the host that are to be added to a disk.

use std::collections::BTreeSet;
use std::ffi::OsString;
use std::fs;
use std::path::Path;

use crate::failure::Failure;
use crate::host_names::LISTING;
use crate::listing::{self, Listed};
use crate::output::Output;

/// A file, and what it is to be on the disk.
#[derive(Debug, PartialEq, Eq)]
pub struct Source {
    pub name: Vec<u8>,
    pub file: OsString,
    pub date: u32,
    /// Whether its entry on another disk had more, which an add does not write.
    pub has_more: bool,
}

/// All files that these paths name, with those of folders. A date that is given
/// is that of all; else a listing's is taken, or 0.
pub fn of(paths: &[OsString], date: Option<u32>, output: &Output) -> Result<Vec<Source>, Failure> {
    let mut all = Vec::new();
    for path in paths {
        match Path::new(path).is_dir() {
            true => all.extend(in_folder(Path::new(path), date, output)?),
            false => all.push(Source {
                name: own_name(Path::new(path)),
                file: path.clone(),
                date: date.unwrap_or_default(),
                has_more: false,
            }),
        }
    }
    Ok(all)
}

/// The name that a file has on the host.
fn own_name(path: &Path) -> Vec<u8> {
    let name = path.file_name().unwrap_or_default();
    name.as_encoded_bytes().to_vec()
}

/// The files of a folder: those of its listing, if it has one, then the others
/// by their names.
fn in_folder(folder: &Path, date: Option<u32>, output: &Output) -> Result<Vec<Source>, Failure> {
    let listed = listed(folder)?;
    let files: BTreeSet<&OsString> = listed.iter().map(|listed| &listed.file).collect();
    let mut names = names(folder, output)?;
    names.retain(|name| !files.contains(name));
    let others = names.into_iter().map(|file| Listed {
        name: own_name(Path::new(&file)),
        file,
        date: 0,
        has_more: false,
    });
    let sources = listed.into_iter().chain(others).map(|listed| Source {
        name: listed.name,
        file: folder.join(listed.file).into_os_string(),
        date: date.unwrap_or(listed.date),
        has_more: listed.has_more,
    });
    Ok(sources.collect())
}

/// What the listing of a folder says, if there is one.
fn listed(folder: &Path) -> Result<Vec<Listed>, Failure> {
    let path = folder.join(LISTING).display().to_string();
    listing::parse(&path, &listing::read(folder)?)
}

/// The names of the files in a folder, in order. Hidden ones are left out, and
/// what is no plain file, as a folder or a pipe, which is told.
fn names(folder: &Path, output: &Output) -> Result<Vec<OsString>, Failure> {
    let failed = |error| Failure::io(folder, error);
    let entries = fs::read_dir(folder).map_err(failed)?;
    let names = entries.map(|entry| entry.map(|entry| entry.file_name()));
    let mut names: Vec<OsString> = names.collect::<Result<_, _>>().map_err(failed)?;
    names.sort();
    names.retain(|name| {
        let hidden = name.as_encoded_bytes().starts_with(b".");
        if hidden || name == LISTING {
            return false;
        }
        let path = folder.join(name);
        let words = match fs::metadata(&path) {
            Ok(about) if about.is_dir() => "is a folder, left out",
            Ok(about) if !about.is_file() => "is no plain file, left out",
            // What cannot be read is told when it is read.
            _ => return true,
        };
        output.note(&format!("{}: {words}", path.display()));
        false
    });
    Ok(names)
}
