//! Names with `*` and `?`.

use std::fs;

use crate::bench::{Bench, Ended};

/// A bench with a disk of these files, each with its own name as data.
fn bench() -> Bench {
    let bench = Bench::with_disk();
    for name in ["Cue_1", "cue_2", "cue_10", "boot", "a*b", "axb", "a?"] {
        bench.write("name", name.as_bytes());
        let name = name.replace('*', "\\x2A").replace('?', "\\x3F");
        bench.quiet(&format!("put disk.img {name} name --date 5"));
    }
    bench
}

/// The names that ls shows with these options.
fn listed(bench: &Bench, options: &str) -> Vec<String> {
    let ended = bench.line(&format!("ls disk.img{options}"));
    assert_eq!((ended.status, &*ended.err), (Some(0), ""), "{options}");
    let (heading, files) = ended.out.split_once('\n').unwrap();
    // How many files the disk has does not depend on how many are shown.
    let count = bench.line("ls disk.img").out.lines().count() - 1;
    assert!(heading.contains(&format!(", {count} file")), "{heading}");
    files.lines().map(|line| line[31..].to_string()).collect()
}

#[test]
fn lists() {
    let bench = bench();
    for (options, names) in [
        (" --name cue_*", &["Cue_1", "cue_2", "cue_10"][..]),
        (" --name CUE_?", &["Cue_1", "cue_2"]),
        (" --name *O*", &["boot"]),
        (" --name ????", &["boot"]),
        (" --name boot", &["boot"]),
        (" --name a\\x2Ab", &["a\\x2Ab"]),
        (" --name a*b", &["a\\x2Ab", "axb"]),
        (" --name a\\x3f", &["a\\x3F"]),
        (" --name a?", &["a\\x3F"]),
        (" --name *_1 --name b*", &["Cue_1", "boot"]),
        (" --name cue_1 --name *1", &["Cue_1"]),
        (" --name x*", &[]),
        (" --name ?", &[]),
    ] {
        assert_eq!(listed(&bench, options), names, "{options}");
    }
    assert_eq!(listed(&bench, " --name *"), listed(&bench, ""));
}

/// A pattern of get needs a folder, whose listing has the files that match.
#[test]
fn gets() {
    let bench = bench();
    bench.quiet("get disk.img CUE_* cues");
    let mut names: Vec<_> = fs::read_dir(bench.path("cues"))
        .unwrap()
        .map(|entry| entry.unwrap().file_name().into_string().unwrap())
        .collect();
    names.sort();
    let expected = ["Cue_1", "cue_10", "cue_2", "dheg-listing.txt"];
    assert_eq!(names, expected);
    for name in &expected[..3] {
        assert_eq!(bench.read(&format!("cues/{name}")), name.as_bytes());
    }
    bench.quiet("format copy.img");
    bench.quiet("put copy.img cues");
    let ended = bench.line("ls copy.img");
    let lines: Vec<&str> = ended.out.lines().skip(1).collect();
    let expected = ["5  Cue_1", "5  cue_2", "6  cue_10"].map(|line| {
        let (length, name) = line.split_once("  ").unwrap();
        format!("{length:>8}  1961-01-01 00:00:05  {name}")
    });
    assert_eq!(lines, expected);
}

/// A star that is written `\x2A` is a star of the name, and OUT is a file.
#[test]
fn names_that_have_a_star() {
    let bench = bench();
    bench.quiet("get disk.img a\\x2Ab out");
    assert_eq!(bench.read("out"), b"a*b");
    bench.quiet("rm disk.img a\\x2ab");
    assert_eq!(listed(&bench, " --name a*"), ["axb", "a\\x3F"]);
}

#[test]
fn removes() {
    for (words, left) in [
        ("CUE_?", &["cue_10", "boot", "a\\x2Ab", "axb", "a\\x3F"][..]),
        ("*", &[]),
        ("boot cue_2 a*", &["Cue_1", "cue_10"]),
        ("*_1* b*", &["cue_2", "a\\x2Ab", "axb", "a\\x3F"]),
    ] {
        let bench = bench();
        bench.quiet(&format!("rm disk.img {words}"));
        assert_eq!(listed(&bench, ""), left, "{words}");
        assert_eq!(
            bench.line("check disk.img"),
            Ended::new(0, "disk.img: sound\n", "")
        );
    }
}

/// A file that several words stand for is removed once, whichever comes first.
#[test]
fn removed_once() {
    for words in [
        "*1 cue_*",
        "cue_* CUE_2",
        "CUE_2 cue_*",
        "c* C*",
        "cue_1 Cue_1 cue_*",
    ] {
        let bench = bench();
        bench.quiet(&format!("rm disk.img {words}"));
        let left = ["boot", "a\\x2Ab", "axb", "a\\x3F"];
        assert_eq!(listed(&bench, ""), left, "{words}");
    }
}

/// That nothing matches is a refusal; nothing is written, no folder is made and
/// no file is removed.
#[test]
fn nothing_matches() {
    let bench = bench();
    for (line, pattern) in [
        ("get disk.img x* out", "x*"),
        ("get disk.img ? out", "?"),
        ("rm disk.img x*", "x*"),
        ("rm disk.img boot x*", "x*"),
        ("rm disk.img x* boot", "x*"),
        ("rm disk.img boot y? x*", "y?"),
    ] {
        let none = format!("disk.img: {pattern}: refused 14: no file of this name");
        bench.fails(line, 1, &none);
    }
    let none = "disk.img: none: refused 14: no file of this name";
    for line in ["rm disk.img cue_* none", "rm disk.img none *"] {
        bench.fails(line, 1, none);
    }
    assert!(!bench.path("out").exists());
    bench.quiet("format disk.img --force");
    bench.fails(
        "get disk.img * out",
        1,
        "disk.img: *: refused 14: no file of this name",
    );
}

/// In a batch and in the steps of edit a star is a star of the name.
#[test]
fn not_in_lists_and_steps() {
    let bench = bench();
    bench.write("list", b"rm a*b\n");
    bench.quiet("batch disk.img list");
    assert_eq!(listed(&bench, " --name a*"), ["axb", "a\\x3F"]);
    bench.quiet("pack disk.img disk.hfe");
    bench.fails(
        "edit disk.hfe disk.hfe -- rm cue_*",
        1,
        "disk.hfe: cue_\\x2A: refused 14: no file of this name",
    );
}
