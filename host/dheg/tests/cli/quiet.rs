//! `--quiet`: results and failures alone.

use crate::bench::{Bench, Ended};

/// A bench with the disk `disk.img`, the same as `three.hfe` of version 3, and
/// `bad.img`, which has no disk header.
fn bench() -> Bench {
    let bench = Bench::with_file();
    bench.write("three.hfe", &bench.read("disk.hfe"));
    bench.set_version_3("three.hfe");
    bench.write("bad.img", &bench.read("disk.img"));
    bench.damage("bad.img", 0);
    bench
}

/// Runs a line with the option in every place that it may have.
fn everywhere(bench: &Bench, command: &str, words: &str) -> Ended {
    let ended = bench.line(&format!("--quiet {command} {words}"));
    for line in [
        format!("-q {command} {words}"),
        format!("{command} --quiet {words}"),
        format!("{command} {words} --quiet"),
        format!("{command} {words} -q"),
        format!("-q {command} {words} -q"),
    ] {
        assert_eq!(bench.line(&line), ended, "{line}");
    }
    ended
}

const REFUSED: &str = "dheg: bad.img: refused 8: disk header wrong at byte 0\n";

/// Nothing is told of sound images, all of the others, and no counts.
#[test]
fn check() {
    let bench = bench();
    for words in ["disk.img", "disk.img three.hfe"] {
        assert_eq!(everywhere(&bench, "check", words), Ended::quiet());
    }
    assert_eq!(
        everywhere(&bench, "check", "disk.img bad.img three.hfe"),
        Ended::new(1, "", REFUSED)
    );
    let missing = "dheg: none: No such file or directory (os error 2)\n";
    assert_eq!(
        everywhere(&bench, "check", "disk.img none bad.img"),
        Ended::new(3, "", &format!("{missing}{REFUSED}"))
    );
}

/// The files are the result of ls; its counts are not.
#[test]
fn ls() {
    let bench = bench();
    let one = "@: disk \"\", number 0, 1 file, 1431 of 1440 sectors free\n       \
               4  1961-01-01 00:00:00  one\n";
    let out = ["disk.img", "three.hfe"].map(|image| one.replace('@', image));
    assert_eq!(
        everywhere(&bench, "ls", "disk.img bad.img three.hfe"),
        Ended::new(1, &out.concat(), REFUSED)
    );
}

#[test]
fn conversions() {
    let bench = bench();
    for (command, words) in [
        ("unpack", "three.hfe out.img"),
        ("unpack", "three.hfe disk.hfe --to out"),
        ("pack", "disk.img bad.img --to out"),
    ] {
        assert_eq!(
            everywhere(&bench, command, words),
            Ended::quiet(),
            "{words}"
        );
    }
    let refused = "dheg: bad.img: refused 2: HFE header wrong at byte 0 \
                   (neither HFE version 1 nor HFE version 3)\n";
    assert_eq!(
        everywhere(&bench, "unpack", "three.hfe bad.img --to out"),
        Ended::new(1, "", refused)
    );
    assert!(bench.read("out/three.img") == bench.read("disk.img"));
}

/// That version 3 is written as version 1 is not told. What edit says after its
/// steps begin belongs to them, so that the option stands before.
#[test]
fn changes() {
    let bench = bench();
    bench.write("list", b"put a data");
    for line in [
        "put -q three.hfe b data",
        "-q edit three.hfe out.hfe -- rm one",
        "edit -q three.hfe out.hfe -- rm one",
        "batch three.hfe list -q",
        "cp three.hfe a three.hfe c --quiet",
        "rm three.hfe a -q",
    ] {
        bench.quiet(line);
        bench.set_version_3("three.hfe");
    }
    assert_eq!(
        bench.line("put -q three.hfe b data"),
        Ended::failed(
            1,
            "three.hfe: b: refused 13: name already present in slot 2"
        )
    );
}

/// What other commands print is their result.
#[test]
fn results() {
    let bench = bench();
    assert_eq!(
        everywhere(&bench, "place", "6 2"),
        Ended::new(0, "20\n", "")
    );
    let script = bench.line("completion bash");
    assert_eq!(everywhere(&bench, "completion", "bash"), script);
    assert!(!script.out.is_empty());
}
