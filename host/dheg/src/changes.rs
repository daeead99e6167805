//! Changes of a disk that are made together: all of them, or none.

use std::ffi::OsStr;
use std::path::Path;

use dhegluubin::{batch, BatchList, BatchRefusal, Refusal};

use crate::entries::{self, Entry};
use crate::failure::Failure;
use crate::images::Disk;
use crate::names;
use crate::output::Output;
use crate::patterns::Pattern;

/// Makes the changes of a list on a disk. Where one is refused, the disk is not
/// to be written; `names` has the name of each item's file.
pub fn make(disk: &mut Disk, list: &BatchList, names: &[&[u8]]) -> Result<(), Failure> {
    batch(&mut disk.blocks, list).map_err(|refused| of_item(disk, names, refused))
}

/// A refusal with the name of its item's file.
fn of_item(disk: &Disk, names: &[&[u8]], refused: BatchRefusal) -> Failure {
    let index = refused.item.and_then(|item| item.checked_sub(1));
    match index.and_then(|index| names.get(index)) {
        Some(name) => in_file(&disk.path, name, refused.refusal),
        None => disk.refused(refused.refusal),
    }
}

/// A refusal that concerns a file in an image.
pub fn in_file(image: &OsStr, name: &[u8], refusal: Refusal) -> Failure {
    let image = Path::new(image).display();
    Failure::refused(format!("{image}: {}", names::shown(name)), refusal, None)
}

/// Tells that an entry had more than was written to this disk.
pub fn tell_what_is_lost(disk: &Disk, name: &[u8], output: &Output) {
    output.note(&format!(
        "{}: {}: only length, name and date of its entry are kept, not its type",
        disk.path().display(),
        names::shown(name)
    ));
}

/// The files of a disk that a pattern matches, in slot order; that there is none
/// is a refusal, as it is for a name.
pub fn matching(disk: &Disk, pattern: &Pattern) -> Result<Vec<Entry>, Failure> {
    let mut found = entries::of(&disk.blocks).map_err(|refusal| disk.refused(refusal))?;
    found.retain(|entry| pattern.matches(&entry.name));
    match found.is_empty() {
        true => {
            let what = format!("{}: {}", disk.path().display(), pattern.text());
            Err(Failure::refused(what, Refusal::NoSuchName, None))
        }
        false => Ok(found),
    }
}
