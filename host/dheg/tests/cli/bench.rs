//! A folder to work in, and the tool run there.

use std::ffi::OsStr;
use std::fs;
use std::io::Write;
use std::path::{Path, PathBuf};
use std::process::{Command, Output, Stdio};
use std::sync::atomic::{AtomicUsize, Ordering};

use support::codes::LETTERS;

/// A folder that nothing else uses and that goes away with its value.
pub struct Bench {
    folder: PathBuf,
}

/// How a run ended.
#[derive(Debug, PartialEq)]
pub struct Ended {
    pub status: Option<i32>,
    pub out: String,
    pub err: String,
}

impl Ended {
    pub fn new(status: i32, out: &str, err: &str) -> Ended {
        Ended {
            status: Some(status),
            out: out.to_string(),
            err: err.to_string(),
        }
    }

    /// Done, without a word.
    pub fn quiet() -> Ended {
        Ended::new(0, "", "")
    }

    /// Refused or failed, with this line on standard error.
    pub fn failed(status: i32, err: &str) -> Ended {
        Ended::new(status, "", &format!("dheg: {err}\n"))
    }
}

impl From<Output> for Ended {
    fn from(output: Output) -> Ended {
        Ended {
            status: output.status.code(),
            out: String::from_utf8(output.stdout).unwrap(),
            err: String::from_utf8(output.stderr).unwrap(),
        }
    }
}

impl Bench {
    pub fn new() -> Bench {
        static NEXT: AtomicUsize = AtomicUsize::new(0);
        let next = NEXT.fetch_add(1, Ordering::Relaxed);
        let name = format!("dheg-{}-{next}", std::process::id());
        let folder = Path::new(env!("CARGO_TARGET_TMPDIR")).join(name);
        fs::create_dir_all(&folder).unwrap();
        Bench { folder }
    }

    /// A bench with the fresh disk `disk.img`.
    pub fn with_disk() -> Bench {
        let bench = Bench::new();
        assert_eq!(bench.dheg(["format", "disk.img"]), Ended::quiet());
        bench
    }

    /// A bench with the file `data`, which the disk `disk.img` has as `one`,
    /// and that disk as `disk.hfe`.
    pub fn with_file() -> Bench {
        let bench = Bench::with_disk();
        bench.write("data", b"data");
        bench.quiet("put disk.img one data");
        bench.quiet("pack disk.img disk.hfe");
        bench
    }

    /// The tool, to be run in the folder.
    pub fn command(&self) -> Command {
        let mut command = Command::new(env!("CARGO_BIN_EXE_dheg"));
        command.current_dir(&self.folder).stdin(Stdio::null());
        command
    }

    /// A shell, to be run in the folder, that finds the tool and the program
    /// `first_track` before all others.
    pub fn shell(&self) -> Command {
        let package = Path::new(env!("CARGO_MANIFEST_DIR"));
        let tool = Path::new(env!("CARGO_BIN_EXE_dheg")).parent().unwrap();
        let own = [tool.to_path_buf(), package.join("../../target/bin")];
        let others = std::env::var_os("PATH").unwrap_or_default();
        let paths = own.into_iter().chain(std::env::split_paths(&others));
        let mut command = Command::new("sh");
        command.current_dir(&self.folder).stdin(Stdio::null());
        command.env("PATH", std::env::join_paths(paths).unwrap());
        command.arg("-c");
        command
    }

    /// Runs the tool with these arguments.
    pub fn dheg<S: AsRef<OsStr>>(&self, args: impl IntoIterator<Item = S>) -> Ended {
        self.command().args(args).output().unwrap().into()
    }

    /// Runs a line whose arguments have no spaces.
    pub fn line(&self, line: &str) -> Ended {
        self.dheg(line.split(' '))
    }

    /// Runs a line that is done without a word.
    pub fn quiet(&self, line: &str) {
        assert_eq!(self.line(line), Ended::quiet(), "{line}");
    }

    pub fn path(&self, name: &str) -> PathBuf {
        self.folder.join(name)
    }

    pub fn write(&self, name: &str, bytes: &[u8]) {
        fs::write(self.path(name), bytes).unwrap();
    }

    pub fn read(&self, name: &str) -> Vec<u8> {
        fs::read(self.path(name)).unwrap()
    }

    /// Changes a byte of a file.
    pub fn damage(&self, name: &str, at: usize) {
        let mut bytes = self.read(name);
        bytes[at] ^= 0xFF;
        self.write(name, &bytes);
    }

    /// Gives an HFE image the letters of version 3.
    pub fn set_version_3(&self, name: &str) {
        let mut bytes = self.read(name);
        bytes[..8].copy_from_slice(&LETTERS);
        self.write(name, &bytes);
    }

    /// The names in a folder, in order.
    pub fn names(&self, folder: &str) -> Vec<String> {
        let entries = fs::read_dir(self.path(folder)).unwrap();
        let name = |entry: fs::DirEntry| entry.file_name().into_string().unwrap();
        let mut names: Vec<String> = entries.map(|entry| name(entry.unwrap())).collect();
        names.sort();
        names
    }

    /// Names and bytes of all files, in order: what a failure must not change.
    pub fn all(&self) -> Vec<(String, Vec<u8>)> {
        let mut all: Vec<_> = fs::read_dir(&self.folder)
            .unwrap()
            .map(|entry| entry.unwrap())
            .filter(|entry| entry.path().is_file())
            .map(|entry| {
                let name = entry.file_name().into_string().unwrap();
                (name, fs::read(entry.path()).unwrap())
            })
            .collect();
        all.sort();
        all
    }

    /// Runs a line that fails with this status and message, and changes
    /// nothing.
    pub fn fails(&self, line: &str, status: i32, err: &str) {
        let before = self.all();
        assert_eq!(self.line(line), Ended::failed(status, err), "{line}");
        assert!(self.all() == before, "{line} changed a file");
    }
}

/// Where byte `index` of a side stands in a written HFE image.
pub fn side_byte(track: usize, side: usize, index: usize) -> usize {
    512 * (2 + 49 * track) + 512 * (index / 256) + 256 * side + index % 256
}

/// Tells of a test that passes. Written past the macros, whose output a
/// passing test hides.
pub fn tell(words: &str) {
    let line = format!("{words}\n");
    std::io::stderr().write_all(line.as_bytes()).unwrap();
}

impl Drop for Bench {
    fn drop(&mut self) {
        // A folder that stays is no failure of the test.
        let _ = fs::remove_dir_all(&self.folder);
    }
}
