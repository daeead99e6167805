//! The listing beside the files that `dheg get` took from a disk: what the disk
//! says of them, so that `dheg put` gives it back.
//!
//! A line a file, its columns set apart by tabs: the file's name in the folder,
//! its bytes of data, its date, its name on the disk, and the whole entry in
//! hexadecimal digits. Lines that begin with `#` are passed over.

use std::collections::BTreeSet;
use std::ffi::OsString;
use std::fs;
use std::path::{Component, Path};

use crate::entries::{self, Entry};
use crate::failure::Failure;
use crate::host_names::{host_name, LISTING};
use crate::{dates, files_io, names};

/// The first lines, for whoever opens it.
const HEADING: &str = "\
# Files of a QL disk. dheg put IMAGE FOLDER adds them with these names and dates.
# file\tbytes\tdate\tname\tentry
";

/// A file of a folder, and what it is on a disk.
#[derive(Debug, PartialEq, Eq)]
pub struct Listed {
    pub file: OsString,
    pub name: Vec<u8>,
    pub date: u32,
    /// Whether its entry had more than that, which an add does not write.
    pub has_more: bool,
}

/// The listing of a folder, empty where there is none.
pub fn read(folder: &Path) -> Result<String, Failure> {
    let path = folder.join(LISTING);
    if fs::symlink_metadata(&path).is_err() {
        return Ok(String::new());
    }
    files_io::plain_file(path.as_os_str())?;
    let text = String::from_utf8(files_io::read_list(path.as_os_str())?)
        .map_err(|_| Failure::Usage(format!("{}: is not text in UTF-8", path.display())))?;
    // Some editors put a byte order mark before the text.
    Ok(text.trim_start_matches('\u{FEFF}').to_string())
}

/// The files that a listing names, as far as its lines are right.
pub fn files(listing: &str) -> BTreeSet<OsString> {
    let lines = listing.lines().filter_map(|line| listed(line).ok());
    lines.map(|listed| listed.file).collect()
}

/// The lines of a listing that stay where these files are written beside it: those
/// about other files that are there.
pub fn kept<'a>(
    listing: &'a str,
    entries: &[Entry],
    is_there: impl Fn(&str) -> bool,
) -> Vec<&'a str> {
    let new: BTreeSet<String> = entries.iter().map(|entry| host_name(&entry.name)).collect();
    let stays = |line: &&str| match (listed(line), line.split_once('\t')) {
        (Ok(_), Some((file, _))) => !new.contains(file) && is_there(file),
        _ => false,
    };
    listing.lines().filter(stays).collect()
}

/// The listing of these files, after lines that are kept from another.
pub fn text(kept: &[&str], entries: &[Entry]) -> String {
    let mut text = String::from(HEADING);
    for line in kept {
        text.push_str(&format!("{line}\n"));
    }
    for entry in entries {
        let digits: String = entry
            .bytes
            .iter()
            .map(|byte| format!("{byte:02x}"))
            .collect();
        text.push_str(&format!(
            "{}\t{}\t{}\t{}\t{digits}\n",
            host_name(&entry.name),
            entry.length,
            dates::shown(entry.date),
            names::shown(&entry.name),
        ));
    }
    text
}

/// What a listing says. `at` is the listing's name, for whoever has to put it
/// right.
pub fn parse(at: &str, text: &str) -> Result<Vec<Listed>, Failure> {
    let mut all = Vec::new();
    for (number, line) in (1..).zip(text.lines()) {
        if line.is_empty() || line.starts_with('#') {
            continue;
        }
        let wrong = |words: String| Failure::Usage(format!("{at}, line {number}: {words}"));
        all.push(listed(line).map_err(wrong)?);
    }
    Ok(all)
}

/// The file of a line. How many bytes it had is not judged: it may have been
/// changed.
fn listed(line: &str) -> Result<Listed, String> {
    let columns: Vec<&str> = line.split('\t').collect();
    let [file, _, date, name, ref rest @ ..] = columns[..] else {
        return Err(String::from("has fewer than four columns"));
    };
    if !is_in_the_folder(file) || file == LISTING {
        return Err(format!("{file} is not the name of a file in this folder"));
    }
    Ok(Listed {
        file: OsString::from(file),
        name: names::parse(name.as_ref())?,
        date: dates::parse(date)?,
        has_more: rest
            .first()
            .is_some_and(|digits| entries::has_more(&bytes(digits))),
    })
}

/// The bytes of hexadecimal digits, as far as they are such.
fn bytes(digits: &str) -> Vec<u8> {
    let digits: Vec<u32> = digits
        .chars()
        .map_while(|digit| digit.to_digit(16))
        .collect();
    let byte = |pair: &[u32]| pair.iter().fold(0, |value, digit| value << 4 | digit);
    let bytes = digits.chunks_exact(2).map(byte);
    bytes.filter_map(|byte| u8::try_from(byte).ok()).collect()
}

/// Whether a name leads nowhere else.
fn is_in_the_folder(file: &str) -> bool {
    let mut parts = Path::new(file).components();
    let first = parts.next();
    matches!(first, Some(Component::Normal(name)) if name == file) && parts.next().is_none()
}

#[cfg(test)]
mod tests {
    use super::*;

    fn entry(name: &[u8], length: u32, date: u32) -> Entry {
        Entry {
            name: name.to_vec(),
            length,
            date,
            bytes: vec![0xA5; 64],
        }
    }

    #[test]
    fn what_it_shows() {
        let text = text(
            &[],
            &[entry(b"two words", 5, 0), entry(b"a\t*", 70_000, 86_400)],
        );
        let lines: Vec<&str> = text.lines().skip(2).collect();
        let digits = "a5".repeat(64);
        let expected = [
            format!("two%20words\t5\t1961-01-01 00:00:00\ttwo words\t{digits}"),
            format!("a%09%2A\t70000\t1961-01-02 00:00:00\ta\\x09\\x2A\t{digits}"),
        ];
        assert_eq!(lines, expected);
    }

    /// Names of any bytes and dates come back.
    #[test]
    fn there_and_back() {
        let all: Vec<u8> = (0..=255).collect();
        let entries: Vec<Entry> = (0..)
            .zip(all.chunks(36))
            .map(|(number, name)| entry(name, number, u32::MAX - number))
            .collect();
        let parsed = parse("listing", &text(&[], &entries)).unwrap();
        assert_eq!(parsed.len(), entries.len());
        for (listed, entry) in parsed.iter().zip(&entries) {
            assert_eq!((&listed.name, listed.date), (&entry.name, entry.date));
            assert_eq!(listed.file, OsString::from(host_name(&entry.name)));
        }
    }

    #[test]
    fn lines_that_stay() {
        let entries = [entry(b"a", 5, 0), entry(b"b", 6, 0), entry(b"c c", 7, 0)];
        let listing = text(&[], &entries);
        let lines: Vec<&str> = listing.lines().skip(2).collect();
        let new = [entry(b"b", 1, 1), entry(b"d", 1, 1)];
        assert_eq!(kept(&listing, &new, |_| true), [lines[0], lines[2]]);
        assert_eq!(kept(&listing, &new, |file| file == "c%20c"), [lines[2]]);
        assert_eq!(kept("../a\t1\t0\ta\n\nb\n", &[], |_| true), [""; 0]);
        let text = text(&[lines[2]], &new);
        assert_eq!(text.lines().nth(2), Some(lines[2]));
        assert_eq!(text.lines().count(), 5);
    }

    #[test]
    fn wrong_lines() {
        for (line, words) in [
            ("a\t1\t5", "has fewer than four columns"),
            (
                "../a\t1\t5\ta",
                "../a is not the name of a file in this folder",
            ),
            ("/a\t1\t5\ta", "/a is not the name of a file in this folder"),
            ("..\t1\t5\ta", ".. is not the name of a file in this folder"),
            ("\t1\t5\ta", " is not the name of a file in this folder"),
            ("a/\t1\t5\ta", "a/ is not the name of a file in this folder"),
            ("a\t1\tnever\ta", "never is not a date"),
            ("a\t1\t5\t\\q", "in the name \\q a backslash"),
        ] {
            let text = format!("# files\n\n{line}\n");
            let failure = parse("listing", &text).unwrap_err();
            assert_eq!(failure.status(), 2);
            let expected = format!("dheg: listing, line 3: {words}");
            assert!(failure.to_string().starts_with(&expected), "{failure}");
        }
    }
}
