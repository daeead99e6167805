//! Reading of whole files, and writing that loses nothing when it fails.

use std::ffi::OsStr;
use std::fs::{self, File, OpenOptions, Permissions};
use std::io::{self, Read, Write};
use std::path::{Path, PathBuf};
use std::sync::atomic::{AtomicUsize, Ordering};

use dhegluubin::{Edition, IMAGE_LEN, SECTOR_LEN};

use crate::failure::Failure;

/// Most bytes of an HFE image that are looked at: track table and tracks
/// begin at one of 65,536 units of 512 bytes and have under 65,536 bytes.
const HFE_LIMIT: usize = 65_536 * 512 + 65_536;

/// A byte more than fits a disk, which is refused as anything longer is.
const DISK_LIMIT: usize = IMAGE_LEN + 1;

/// The same for a sector.
const SECTOR_LIMIT: usize = SECTOR_LEN + 1;

/// Most bytes of the list of a batch, many times what a disk's files need.
const LIST_LIMIT: usize = 1 << 24;

/// Letters that tell the version of an HFE image (§2.2).
const EDITION_LEN: usize = 8;

/// Temporary names that are tried before it is given up.
const TRIES: u32 = 100;

/// The bytes of an HFE image, as many as matter.
pub fn read_hfe(path: &OsStr) -> Result<Vec<u8>, Failure> {
    read(path, HFE_LIMIT)
}

/// All bytes of an HFE image that is to be written again, also those that
/// nothing looks at. A device or a pipe may be endless: of these no more is
/// taken than matters.
pub fn read_whole_hfe(path: &OsStr) -> Result<Vec<u8>, Failure> {
    let at = Path::new(path);
    let about = fs::metadata(at).map_err(|error| Failure::io(at, error))?;
    if about.is_file() {
        return fs::read(at).map_err(|error| Failure::io(at, error));
    }
    read_all(path, HFE_LIMIT, "does not end")
}

/// All bytes of the list of a batch, no part of which may be left out.
pub fn read_list(path: &OsStr) -> Result<Vec<u8>, Failure> {
    read_all(path, LIST_LIMIT, "is too long for a list")
}

/// The bytes of a block image, as many as matter.
pub fn read_image(path: &OsStr) -> Result<Vec<u8>, Failure> {
    read(path, DISK_LIMIT)
}

/// The bytes of a file that is to be added, as many as matter.
pub fn read_data(path: &OsStr) -> Result<Vec<u8>, Failure> {
    read(path, DISK_LIMIT)
}

/// The bytes of a file that is to be a sector, as many as matter.
pub fn read_sector(path: &OsStr) -> Result<Vec<u8>, Failure> {
    read(path, SECTOR_LIMIT)
}

/// Reads a file that has at most so many bytes, or fails in these words.
fn read_all(path: &OsStr, limit: usize, words: &'static str) -> Result<Vec<u8>, Failure> {
    let bytes = read(path, limit + 1)?;
    match bytes.len() > limit {
        true => Err(Failure::io(Path::new(path), io::Error::other(words))),
        false => Ok(bytes),
    }
}

/// Reads at most so many bytes, so that an endless file does not fill the
/// memory.
fn read(path: &OsStr, limit: usize) -> Result<Vec<u8>, Failure> {
    let path = Path::new(path);
    let most = u64::try_from(limit).unwrap_or(u64::MAX);
    let mut bytes = Vec::new();
    File::open(path)
        .and_then(|file| file.take(most).read_to_end(&mut bytes))
        .map_err(|error| Failure::io(path, error))?;
    Ok(bytes)
}

/// Whether a path is that of a file that begins as an HFE image does.
pub fn is_hfe(path: &OsStr) -> bool {
    // A device or a pipe is not read: it might wait, and what is read is lost.
    let plain = fs::metadata(path).is_ok_and(|about| about.is_file());
    plain && read(path, EDITION_LEN).is_ok_and(|start| Edition::of(&start).is_some())
}

/// Whether a path is that of a file that has the length of a block image.
pub fn is_block_image(path: &OsStr) -> bool {
    let length = u64::try_from(IMAGE_LEN).unwrap_or(u64::MAX);
    fs::metadata(path).is_ok_and(|about| about.is_file() && about.len() == length)
}

/// Fails where a path is that of the input, which would be lost.
pub fn not_the_input(input: &OsStr, path: &OsStr) -> Result<(), Failure> {
    let same = match (fs::canonicalize(input), fs::canonicalize(path)) {
        (Ok(input), Ok(path)) => input == path,
        _ => false,
    };
    match same {
        true => {
            let path = Path::new(path).display();
            let words = format!("{path} is the input, which would be lost");
            Err(Failure::Usage(words))
        }
        false => Ok(()),
    }
}

/// Fails where a path is not that of a plain file: a pipe that is read cannot be
/// written again.
pub fn plain_file(path: &OsStr) -> Result<(), Failure> {
    let path = Path::new(path);
    let about = fs::metadata(path).map_err(|error| Failure::io(path, error))?;
    match about.is_file() {
        true => Ok(()),
        false => Err(Failure::io(path, io::Error::other("is no plain file"))),
    }
}

/// Writes a file under a temporary name in the same folder, then renames it:
/// until all is written, what was there before stays.
pub fn write(path: &OsStr, bytes: &[u8]) -> Result<(), Failure> {
    let path = Path::new(path);
    replace(path, bytes).map_err(|error| Failure::io(path, error))
}

/// As `write`, but only where nothing is there yet.
pub fn write_new(path: &OsStr, bytes: &[u8]) -> Result<(), Failure> {
    not_there(path)?;
    write(path, bytes)
}

/// Fails where something is there already.
pub fn not_there(path: &OsStr) -> Result<(), Failure> {
    if fs::symlink_metadata(path).is_err() {
        return Ok(());
    }
    let words = "is there already, --force writes over it";
    let error = io::Error::new(io::ErrorKind::AlreadyExists, words);
    Err(Failure::io(Path::new(path), error))
}

fn replace(path: &Path, bytes: &[u8]) -> io::Result<()> {
    // What it leads to may be a file that others write to as well.
    if path == Path::new("/dev/stdout") {
        let mut out = io::stdout();
        return out.write_all(bytes).and_then(|()| out.flush());
    }
    let old = match fs::metadata(path) {
        Err(error) if error.kind() == io::ErrorKind::NotFound => None,
        Err(error) => return Err(error),
        Ok(old) => Some(old),
    };
    match old {
        None => beside(path, bytes, None),
        Some(old) if old.is_dir() => Err(io::Error::other("is a folder")),
        // A device or a pipe holds nothing to be kept, and must not give way
        // to a plain file.
        Some(old) if !old.is_file() => OpenOptions::new().write(true).open(path)?.write_all(bytes),
        // A rename does not ask whether the file may be written.
        Some(old) if old.permissions().readonly() => Err(io::Error::new(
            io::ErrorKind::PermissionDenied,
            "is write-protected",
        )),
        // Behind a link the file is replaced, not the link.
        Some(old) => beside(&fs::canonicalize(path)?, bytes, Some(old.permissions())),
    }
}

/// Writes beside the target and renames.
fn beside(target: &Path, bytes: &[u8], permissions: Option<Permissions>) -> io::Result<()> {
    let folder = match target.parent() {
        Some(folder) if folder != Path::new("") => folder,
        _ => Path::new("."),
    };
    let (mut temporary, mut file) = Temporary::create(folder)?;
    file.write_all(bytes)?;
    if let Some(permissions) = permissions {
        file.set_permissions(permissions)?;
    }
    // The name must not reach the disk before the bytes do.
    file.sync_all()?;
    drop(file);
    fs::rename(&temporary.path, target)?;
    temporary.renamed = true;
    Ok(())
}

/// A file that is removed again unless it was renamed.
struct Temporary {
    path: PathBuf,
    renamed: bool,
}

impl Temporary {
    /// Creates it under a name that nothing has.
    fn create(folder: &Path) -> io::Result<(Temporary, File)> {
        // Several threads write at once.
        static NEXT: AtomicUsize = AtomicUsize::new(0);
        let mut tries = 0;
        loop {
            let number = NEXT.fetch_add(1, Ordering::Relaxed);
            let path = folder.join(format!(".dheg-{}-{number}.tmp", std::process::id()));
            match OpenOptions::new().write(true).create_new(true).open(&path) {
                Err(error) if error.kind() == io::ErrorKind::AlreadyExists && tries < TRIES => {
                    tries += 1;
                }
                Err(error) => return Err(error),
                Ok(file) => {
                    let temporary = Temporary {
                        path,
                        renamed: false,
                    };
                    return Ok((temporary, file));
                }
            }
        }
    }
}

impl Drop for Temporary {
    fn drop(&mut self) {
        if !self.renamed {
            // The failure that led here is told; this one would hide it.
            let _ = fs::remove_file(&self.path);
        }
    }
}
