//! Wrong command lines: status 2, words on standard error.

use crate::bench::{Bench, Ended};

/// How a line that is wrong ended; it changes nothing.
fn ended(bench: &Bench, line: &str) -> Ended {
    let before = bench.all();
    let ended = bench.line(line);
    assert_eq!(ended.status, Some(2), "{line}");
    assert_eq!(ended.out, "", "{line}");
    assert!(bench.all() == before, "{line}");
    ended
}

/// The line fails with these words, then the usage of its command, and
/// changes nothing.
fn wrong(bench: &Bench, line: &str, words: &str) {
    let command = line.split(' ').next().unwrap();
    let ended = ended(bench, line);
    let expected = format!("dheg: {command}: {words}\nUsage: dheg {command} ");
    assert!(ended.err.starts_with(&expected), "{line}: {}", ended.err);
}

/// The reader of the command line has this text in its first lines, which names
/// what is wrong.
fn misread(bench: &Bench, line: &str, text: &str) -> Ended {
    let ended = ended(bench, line);
    let first = ended.err.split("\n\n").next().unwrap();
    assert!(first.starts_with("dheg: "), "{line}: {first}");
    assert!(first.contains(text), "{line}: {first}");
    assert!(!ended.err.contains("error: "), "{line}: {}", ended.err);
    ended
}

/// The same, and the usage of the command is shown.
fn misread_with_usage(bench: &Bench, line: &str, text: &str) {
    let command = line.split(' ').next().unwrap();
    let ended = misread(bench, line, text);
    let usage = format!("\n\nUsage: dheg {command} ");
    assert!(ended.err.contains(&usage), "{line}: {}", ended.err);
}

#[test]
fn no_command() {
    let bench = Bench::new();
    let ended = bench.dheg([""; 0]);
    assert_eq!(ended.status, Some(2));
    assert_eq!(ended.out, "");
    assert!(ended.err.starts_with("dheg: "), "{}", ended.err);
    assert!(ended.err.contains("subcommand"), "{}", ended.err);
    assert!(ended.err.contains(" unpack, pack, "), "{}", ended.err);
    for word in ["lss", "-x", "--unpack", ""] {
        let ended = misread(&bench, word, &format!("'{word}'"));
        assert!(ended.err.contains("\nUsage: dheg "), "{}", ended.err);
    }
}

#[test]
fn counts_of_words() {
    let bench = Bench::with_disk();
    for (line, missing) in [
        ("unpack", "<FILE>..."),
        ("place 1", "<SECTOR>"),
        ("format", "<OUT.img>"),
        ("check", "<IMAGE>..."),
        ("ls", "<IMAGE>..."),
        ("get disk.img a", "<OUT>"),
        ("put disk.img", "<FILE>..."),
        ("rm disk.img", "<NAME>..."),
        ("cp disk.img a", "<IMAGE2>"),
        ("batch disk.img", "<LISTFILE>"),
        ("edit a -- rm b", "<OUT.hfe>"),
        ("poke a b 0 0 1", "<DATAFILE>"),
        ("completion", "<SHELL>"),
    ] {
        misread_with_usage(&bench, line, missing);
    }
    for (line, too_much) in [
        ("format a b", "'b'"),
        ("batch disk.img list more", "'more'"),
        ("poke a b 0 0 1 c d", "'d'"),
        ("place 1 2 3", "'3'"),
        ("get disk.img a b c", "'c'"),
        ("cp disk.img a disk.img b c", "'c'"),
    ] {
        misread_with_usage(&bench, line, too_much);
    }
    for (line, count) in [("unpack a b c", 3), ("pack a", 1)] {
        let words = format!("files needed without --to: 2, given: {count}");
        wrong(&bench, line, &words);
    }
}

/// Words that were too few or too many for a command that takes several files now
/// are files and names that are missing.
#[test]
fn words_of_commands_that_take_several() {
    let bench = Bench::with_disk();
    let missing = "No such file or directory (os error 2)";
    bench.fails("put disk.img a", 3, &format!("a: {missing}"));
    bench.fails(
        "rm disk.img a b",
        1,
        "disk.img: a: refused 14: no file of this name",
    );
}

#[test]
fn options() {
    let bench = Bench::with_disk();
    bench.write("data", b"data");
    for (line, text) in [
        ("check -v disk.img", "'-v'"),
        ("unpack --force a b", "'--force'"),
        ("pack disk.img a --json", "'--json'"),
        ("poke a b 0 -1 1 data", "'-1'"),
        ("format a --number -1", "'-1'"),
        ("get disk.img one --all folder", "'--all <DIR>'"),
        ("put disk.img data --name a --files", "'--name <NAME>'"),
    ] {
        misread_with_usage(&bench, line, text);
    }
    for (line, option) in [
        ("format a --force --force", "'--force'"),
        ("format a --bad 5 --bad 6", "'--bad <B,B...>'"),
        ("format a --name b --name c", "'--name <N>'"),
        ("put disk.img a data --date now --date 1", "'--date <D>'"),
        ("unpack a --to b --to c", "'--to <DIR>'"),
        ("check disk.img --json --json", "'--json'"),
        ("check --quiet disk.img -q", "'--quiet'"),
    ] {
        misread_with_usage(&bench, line, option);
        assert!(bench.line(line).err.contains(" multiple times\n"), "{line}");
    }
    for line in ["format a --name", "format a --bad", "unpack a --to"] {
        let option = line.split(' ').next_back().unwrap();
        misread(&bench, line, &format!("'{option} <"));
    }
}

#[test]
fn options_and_values() {
    let bench = Bench::with_disk();
    bench.write("data", b"data");
    for (line, text) in [
        ("format a --number 65536", "'65536' for '--number <K>'"),
        ("format a --bad 65536", "'65536' for '--bad <B,B...>'"),
        ("format a --bad 5,70000,6", "'70000' for '--bad <B,B...>'"),
    ] {
        misread(&bench, line, &format!("{text}: over 65535"));
    }
    for (line, text) in [
        ("format a --number=-1", "'-1' for '--number <K>'"),
        ("format a --bad five", "'five' for '--bad <B,B...>'"),
        ("format a --bad 5,-6", "'-6' for '--bad <B,B...>'"),
        ("format a --bad 5,6,", "'' for '--bad <B,B...>'"),
        ("format a --bad ,5", "'' for '--bad <B,B...>'"),
        ("format a --bad 5;6", "'5;6' for '--bad <B,B...>'"),
        ("place one 2", "'one' for '<BLOCK>'"),
        ("poke a b one 0 1 data", "'one' for '<TRACK>'"),
        ("poke a b 0 0x1 1 data", "'0x1' for '<SIDE>'"),
        ("poke a b 0 0 1, data", "'1,' for '<R>'"),
        ("poke -- a b 0 -1 1 data", "'-1' for '<SIDE>'"),
    ] {
        misread(&bench, line, &format!("{text}: not a number"));
    }
    let words = "never is not a date from 1961-01-01 00:00:00 to 2097-02-06 06:28:15, \
                 nor its seconds, nor now";
    misread(&bench, "put disk.img a data --date never", words);
    misread(&bench, "completion csh", "'csh'");
}

/// A wrong name is told in whole, wherever a name or a pattern is taken.
#[test]
fn names() {
    let bench = Bench::with_disk();
    bench.write("data", b"data");
    let words = "in the name \\q a backslash is not followed by xHH or another backslash";
    for line in [
        "rm disk.img \\q",
        "get disk.img \\q out",
        "ls disk.img --name \\q",
        "put disk.img data --name \\q",
        "cp disk.img \\q disk.img",
        "format a --name \\q",
    ] {
        misread(&bench, line, words);
    }
    wrong(&bench, "put disk.img \\q data", words);
}

/// An option and its value may be one word.
#[test]
fn values_after_an_equals_sign() {
    let bench = Bench::new();
    bench.quiet("format a --bad 5 --number 7");
    bench.quiet("format b --bad=5 --number=7");
    assert!(bench.read("a") == bench.read("b"));
    // Here a value may begin with a dash.
    bench.quiet("format c --name=-q");
    assert_eq!(bench.read("c")[4..14], *b"-q        ");
    bench.write("data", b"data");
    bench.quiet("put c data --name=--date");
    assert!(bench.line("ls c").out.ends_with("  \\x2D-date\n"));
}

#[test]
fn steps_of_edit() {
    let bench = Bench::with_disk();
    bench.quiet("pack disk.img disk.hfe");
    for steps in ["", " --"] {
        let line = format!("edit disk.hfe out.hfe{steps}");
        misread_with_usage(&bench, &line, "<STEP>...");
    }
    misread_with_usage(&bench, "edit disk.hfe out.hfe rm a", "'rm'");
    for (steps, words) in [
        (" -- rm", "rm needs NAME"),
        (" -- put a", "put needs NAME and FILE"),
        (" -- ls a", "there is no step ls"),
        (" -- rm a --date 1", "there is no step --date"),
        (" -- put a b --date", "--date has no value"),
    ] {
        wrong(&bench, &format!("edit disk.hfe out.hfe{steps}"), words);
    }
}
