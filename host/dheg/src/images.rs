//! Disks in files: a block image, or an HFE image of version 1 or 3.
//!
//! A file that begins with the letters of an HFE version (§2.2) is an HFE image,
//! every other one a block image, whose length the library judges.

use std::ffi::{OsStr, OsString};
use std::path::Path;

use dhegluubin::{pack, unpack, Edition, Refusal, HFE_LEN, IMAGE_LEN};

use crate::failure::{Details, Failure};
use crate::output::Output;
use crate::progress::Progress;
use crate::{bad_sectors, editions, files_io};

/// A disk, and the file that it was read from.
pub struct Disk {
    pub path: OsString,
    /// Its block image.
    pub blocks: Vec<u8>,
    /// The version, if the file is an HFE image.
    pub edition: Option<Edition>,
}

impl Disk {
    /// Reads the disk of a file.
    pub fn read(path: &OsStr, progress: &Progress) -> Result<Disk, Failure> {
        Disk::of(path, &files_io::read_hfe(path)?, progress)
    }

    /// As `read`, of a file that is to be written again.
    pub fn read_to_change(path: &OsStr, progress: &Progress) -> Result<Disk, Failure> {
        files_io::plain_file(path)?;
        Disk::read(path, progress)
    }

    /// As `read`; where sectors cannot be read, all bad ones are named.
    pub fn read_or_name_bad_sectors(path: &OsStr, progress: &Progress) -> Result<Disk, Failure> {
        let bytes = files_io::read_hfe(path)?;
        Disk::of(path, &bytes, progress).map_err(|failure| match failure {
            Failure::Refused(mut refused) if is_of_a_sector(refused.refusal) => {
                let bad = bad_sectors::of(&bytes, bad_sectors::USUAL_LIMIT);
                refused.bad_sectors = Some(Details {
                    lines: bad.lines(),
                    json: bad.json(),
                });
                Failure::Refused(refused)
            }
            other => other,
        })
    }

    fn of(path: &OsStr, bytes: &[u8], progress: &Progress) -> Result<Disk, Failure> {
        let edition = Edition::of(bytes);
        let blocks = match edition {
            Some(_) => unpacked(path, bytes, progress)?,
            None => bytes.to_vec(),
        };
        Ok(Disk {
            path: path.to_os_string(),
            blocks,
            edition,
        })
    }

    /// Writes the disk over the file that it was read from, an HFE image as one
    /// of version 1; of another version that is told.
    pub fn write(&self, output: &Output, progress: &Progress) -> Result<(), Failure> {
        let Some(edition) = self.edition else {
            return files_io::write(&self.path, &self.blocks);
        };
        files_io::write(&self.path, &packed(&self.path, &self.blocks, progress)?)?;
        if edition != Edition::Version1 {
            let path = self.path().display();
            let written = Edition::Version1;
            progress.aside(|| output.note(&format!("{path}: {edition}, written as {written}")));
        }
        Ok(())
    }

    pub fn path(&self) -> &Path {
        Path::new(&self.path)
    }

    /// A refusal that concerns the whole disk.
    pub fn refused(&self, refusal: Refusal) -> Failure {
        let what = self.path().display().to_string();
        Failure::refused(what, refusal, self.note(refusal))
    }

    /// A word for what the file is, for those who read JSON.
    pub fn form(&self) -> &'static str {
        match self.edition {
            None => "blocks",
            Some(Edition::Version1) => "hfe 1",
            Some(Edition::Version3) => "hfe 3",
        }
    }

    /// A file of another length might have been meant as an HFE image.
    fn note(&self, refusal: Refusal) -> Option<String> {
        let other = matches!(refusal, Refusal::Length { .. }) && self.edition.is_none();
        other.then(|| format!("neither an HFE image of version 1 or 3 nor {IMAGE_LEN} bytes"))
    }
}

/// Whether a sector that cannot be read is what an HFE image is refused for.
fn is_of_a_sector(refusal: Refusal) -> bool {
    (4..=7).contains(&refusal.number())
}

/// The block image of an HFE image.
pub fn unpacked(path: &OsStr, hfe: &[u8], progress: &Progress) -> Result<Vec<u8>, Failure> {
    let shown = Path::new(path).display();
    progress.show(&match Edition::of(hfe) {
        Some(edition) => format!("unpacking {shown}, {edition}"),
        None => format!("unpacking {shown}"),
    });
    let mut image = vec![0; IMAGE_LEN];
    unpack(hfe, &mut image).map_err(|refusal| editions::refused(path, hfe, refusal))?;
    Ok(image)
}

/// The HFE image of a block image that came from this file.
pub fn packed(path: &OsStr, image: &[u8], progress: &Progress) -> Result<Vec<u8>, Failure> {
    let path = Path::new(path);
    progress.show(&format!("packing {}", path.display()));
    let mut hfe = vec![0; HFE_LEN];
    let note = Edition::of(image).map(|edition| format!("it is {edition} already"));
    let what = path.display().to_string();
    pack(image, &mut hfe).map_err(|refusal| Failure::refused(what, refusal, note))?;
    Ok(hfe)
}
