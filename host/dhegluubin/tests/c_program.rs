//! C programs that are compiled against the header and run.

use dhegluubin::{add, format, pack, remove, unpack, HFE_LEN, IMAGE_LEN};
use std::fs::File;
use std::path::{Path, PathBuf};
use std::process::{Command, Output};
use support::fenced::fenced;
use support::noise::noise;

const README: &str = include_str!("../../../README.md");

/// The repository's main folder.
fn main_folder() -> PathBuf {
    Path::new(env!("CARGO_MANIFEST_DIR")).join("../..")
}

/// A place for what a test writes.
fn temporary(name: &str) -> PathBuf {
    Path::new(env!("CARGO_TARGET_TMPDIR")).join(name)
}

/// The first C compiler that answers.
fn compiler() -> &'static str {
    let is_there = |name: &&str| Command::new(name).arg("--version").output().is_ok();
    let compilers = ["gcc", "cc"];
    let found = compilers.into_iter().find(is_there);
    found.expect("no C compiler found: this test needs gcc or cc")
}

/// Compiles and links a program, to which a warning is a failure.
fn compiled(sources: &[PathBuf], name: &str) -> PathBuf {
    let program = temporary(name);
    let compiled = Command::new(compiler())
        .args(["-std=c99", "-pedantic", "-Wall", "-Wextra", "-Werror", "-I"])
        .arg(main_folder().join("include"))
        .args(sources)
        .arg(main_folder().join("target/staticlib/libbridge.a"))
        .arg("-o")
        .arg(&program)
        .output()
        .expect("the C compiler runs");
    let messages = String::from_utf8_lossy(&compiled.stderr);
    assert!(compiled.status.success(), "not compiled:\n{messages}");
    program
}

/// What a program of these files of `tests/c` prints; its status must be 0. It
/// has the name of the first.
fn printed(files: &[&str]) -> String {
    let folder = Path::new(env!("CARGO_MANIFEST_DIR")).join("tests/c");
    let source = |file: &&str| folder.join(format!("{file}.c"));
    let sources: Vec<PathBuf> = files.iter().map(source).collect();
    let program = compiled(&sources, files[0]);
    let run = Command::new(&program).output().expect("the program runs");
    let text = String::from_utf8_lossy(&run.stdout);
    assert!(run.status.success(), "{}:\n{text}", run.status);
    text.into_owned()
}

#[test]
fn every_call() {
    let text = printed(&["every_call", "version_3", "bad_blocks", "batch", "checks"]);
    assert!(text.ends_with(" checks, 0 failed\n"), "{text}");
}

/// The bytes of stack that a call of the list uses.
fn stack_of(text: &str, name: &str) -> usize {
    let of_call = |line: &str| Some(line.strip_prefix(name)?.strip_prefix(' ')?.to_string());
    let figure = text.lines().find_map(of_call);
    figure
        .and_then(|figure| figure.parse().ok())
        .unwrap_or_else(|| panic!("no {name}:\n{text}"))
}

/// No call uses more stack than the header says, to which the program compares each. Those that judge
/// a disk and a format with bad blocks stay well below it. Unpack is measured for either version.
#[test]
fn stack() {
    let text = printed(&["stack"]);
    for name in ["dheg_unpack", "dheg_unpack, version 3"] {
        let used = stack_of(&text, name);
        assert!((1..65_536).contains(&used), "{name} uses {used} bytes");
    }
    for name in [
        "dheg_format_bad",
        "dheg_check",
        "dheg_list",
        "dheg_read",
        "dheg_add",
        "dheg_remove",
        "dheg_batch",
    ] {
        let used = stack_of(&text, name);
        assert!((1..40_000).contains(&used), "{name} uses {used} bytes");
    }
    assert_eq!(text.lines().count(), 14, "{text}");
}

/// Runs the readme's example on these bytes.
fn example(program: &Path, input: &[u8]) -> Output {
    let file = temporary("readme_input");
    std::fs::write(&file, input).expect("the input is written");
    let file = File::open(file).expect("the input is there");
    let run = Command::new(program).stdin(file).output();
    run.expect("the program runs")
}

#[test]
fn readme_example() {
    let source = temporary("readme.c");
    std::fs::write(&source, fenced(README, "c")).expect("the source is written");
    let program = compiled(&[source], "readme");

    let mut image = vec![0; IMAGE_LEN];
    format(&mut image, b"STAGE", 7).unwrap();
    add(&mut image, b"boot", 1, &noise(1, 3000)).unwrap();
    add(&mut image, b"cue_7", 1, &noise(2, 20_000)).unwrap();
    let mut hfe = vec![0; HFE_LEN];
    pack(&image, &mut hfe).unwrap();
    let done = example(&program, &hfe);
    assert!(done.status.success(), "{}", done.status);
    let mut back = vec![0; IMAGE_LEN];
    unpack(&done.stdout, &mut back).unwrap();
    remove(&mut image, b"cue_7").unwrap();
    assert!(back == image, "another disk");

    for (input, words) in [
        (&done.stdout[..], "refused 14: 0, 0, 0\n"),
        (&hfe[..3000], "refused 3: 0, 0, 0\n"),
        (b"", "refused 1: 1, 0, 0\n"),
    ] {
        let refused = example(&program, input);
        assert_eq!(refused.status.code(), Some(1));
        assert_eq!(String::from_utf8_lossy(&refused.stderr), words);
        assert!(refused.stdout.is_empty());
    }
}
