//! Outputs that cannot be written, and what must stay.

use crate::bench::{Bench, Ended};

const MISSING: &str = "No such file or directory (os error 2)";

#[test]
fn folder_that_does_not_exist() {
    let bench = Bench::with_file();
    bench.write("sector", &[1; 512]);
    for line in [
        "unpack disk.hfe none/out",
        "pack disk.img none/out",
        "format none/out",
        "format none/out --force",
        "get disk.img one none/out",
        "edit disk.hfe none/out -- rm one",
        "poke disk.hfe none/out 0 0 1 sector",
    ] {
        bench.fails(line, 3, &format!("none/out: {MISSING}"));
    }
}

#[test]
fn inputs_that_do_not_exist() {
    let bench = Bench::with_file();
    bench.write("list", b"rm one");
    for line in [
        "unpack none out",
        "pack none out",
        "check none",
        "ls none",
        "get none one out",
        "put none one data",
        "put disk.img two none",
        "rm none one",
        "batch none list",
        "batch disk.img none",
        "poke none out 0 0 1 data",
        "poke disk.hfe out 0 0 1 none",
    ] {
        bench.fails(line, 3, &format!("none: {MISSING}"));
    }
    assert_eq!(bench.dheg(["put", "disk.img", "two", ""]).status, Some(3));
}

/// An empty path is no path, rather than the current folder: in a script it comes
/// from a variable that is not set.
#[test]
fn empty_paths() {
    let bench = Bench::with_file();
    for args in [
        &["check", ""][..],
        &["pack", "disk.img", ""],
        &["unpack", "disk.hfe", "--to", ""],
        &["get", "disk.img", "--all", ""],
        &["map", "disk.img", "--svg", ""],
    ] {
        let before = bench.all();
        let ended = bench.dheg(args);
        assert_eq!(ended.status, Some(2), "{args:?}");
        assert!(ended.err.contains("a path is needed"), "{}", ended.err);
        assert!(bench.all() == before, "{args:?}");
    }
}

/// No result is written over its input.
#[test]
fn results_over_inputs() {
    let bench = Bench::with_file();
    bench.quiet("put disk.img data --name disk.img");
    bench.write("same.img", &bench.read("disk.hfe"));
    for line in [
        "get disk.img one disk.img",
        "get disk.img --all . --force",
        "get disk.img disk* . --force",
        "map disk.img --svg disk.img",
        "map ./disk.img --svg disk.img",
        "unpack disk.hfe disk.hfe",
        "pack disk.img disk.img",
        "unpack same.img --to .",
        "pack disk.hfe --to .",
    ] {
        let before = bench.all();
        let ended = bench.line(line);
        assert_eq!((ended.status, &*ended.out), (Some(2), ""), "{line}");
        let words = "is the input, which would be lost\n";
        assert!(ended.err.contains(words), "{line}: {}", ended.err);
        assert!(bench.all() == before, "{line}");
    }
}

#[test]
fn folders_instead_of_files() {
    let bench = Bench::with_file();
    std::fs::create_dir(bench.path("folder")).unwrap();
    for line in ["check folder", "unpack folder out", "put folder one data"] {
        let ended = bench.line(line);
        assert_eq!(ended.status, Some(3), "{line}");
    }
    for line in [
        "pack disk.img folder",
        "get disk.img one folder",
        "format folder --force",
    ] {
        bench.fails(line, 3, "folder: is a folder");
    }
}

#[test]
fn no_temporary_file_stays() {
    let bench = Bench::with_file();
    let names =
        |bench: &Bench| -> Vec<String> { bench.all().into_iter().map(|(name, _)| name).collect() };
    let before = names(&bench);
    bench.quiet("rm disk.img one");
    bench.quiet("put disk.img one data");
    bench.quiet("edit disk.hfe disk.hfe -- rm one");
    bench.quiet("get disk.img one data");
    assert_eq!(names(&bench), before);
}

#[cfg(unix)]
mod unix {
    use std::fs::{self, Permissions};
    use std::os::unix::fs::{symlink, PermissionsExt};
    use std::process::Stdio;

    use super::*;

    #[test]
    fn write_protected_images_stay() {
        let bench = Bench::with_file();
        fs::set_permissions(bench.path("disk.img"), Permissions::from_mode(0o444)).unwrap();
        bench.write("list", b"rm one\nrm one");
        for line in [
            "rm disk.img one",
            "put disk.img two data",
            "batch disk.img list",
        ] {
            bench.fails(line, 3, "disk.img: is write-protected");
        }
    }

    #[test]
    fn a_rename_that_fails_leaves_nothing() {
        // A file cannot have a name that ends as a folder's.
        let bench = Bench::with_file();
        let words = "new.hfe/: Not a directory (os error 20)";
        bench.fails("pack disk.img new.hfe/", 3, words);
    }

    #[test]
    fn permissions_are_kept() {
        let bench = Bench::with_file();
        fs::set_permissions(bench.path("disk.img"), Permissions::from_mode(0o640)).unwrap();
        bench.quiet("rm disk.img one");
        let mode = fs::metadata(bench.path("disk.img")).unwrap().permissions();
        assert_eq!(mode.mode() & 0o777, 0o640);
    }

    #[test]
    fn links_stay_links() {
        let bench = Bench::with_file();
        symlink("disk.img", bench.path("link.img")).unwrap();
        bench.quiet("rm link.img one");
        assert!(bench.path("link.img").is_symlink());
        assert!(!bench.path("disk.img").is_symlink());
        bench.fails(
            "rm disk.img one",
            1,
            "disk.img: one: refused 14: no file of this name",
        );
    }

    #[test]
    fn devices_are_written_directly() {
        let bench = Bench::with_file();
        let ended = bench.line("get disk.img one /dev/stdout");
        assert_eq!(ended, Ended::new(0, "data", ""));
    }

    #[test]
    fn standard_output_that_fails() {
        let bench = Bench::with_file();
        for args in [
            vec!["--help"],
            vec!["ls", "disk.img"],
            vec!["place", "0", "0"],
        ] {
            let full = fs::OpenOptions::new().write(true).open("/dev/full");
            let Ok(full) = full else { return };
            let mut command = bench.command();
            command.args(&args).stdout(Stdio::from(full));
            let ended = Ended::from(command.output().unwrap());
            assert_eq!(ended.status, Some(3), "{args:?}");
            assert!(ended.err.starts_with("dheg: standard output: "));
        }
    }

    /// A reader that is gone is an error as any other, not a panic.
    #[test]
    fn standard_output_into_a_closed_pipe() {
        let bench = Bench::with_file();
        for line in [
            "--help",
            "put --help",
            "--version",
            "ls disk.img",
            "check disk.img disk.hfe",
            "check --json disk.img",
            "place 0 0",
            "completion bash",
        ] {
            let (reader, writer) = std::io::pipe().unwrap();
            drop(reader);
            let mut command = bench.command();
            command.args(line.split(' ')).stdout(writer);
            let ended = Ended::from(command.output().unwrap());
            let words = "standard output: Broken pipe (os error 32)";
            assert_eq!(ended, Ended::failed(3, words), "{line}");
        }
    }
}
