//! Files and folders of the host, added by dheg put.

use std::fs;

use support::noise::noise;

use crate::bench::{Bench, Ended};

/// A bench with a disk that has `two`, and a folder of files, hidden ones and
/// folders.
fn bench() -> Bench {
    let bench = Bench::with_disk();
    bench.write("data", b"data");
    bench.quiet("put disk.img two data");
    for folder in ["folder", "folder/sub", "folder/also", "folder/.git"] {
        fs::create_dir(bench.path(folder)).unwrap();
    }
    for name in ["b", "a.txt", "C", "d e", ".hidden", "sub/inner"] {
        bench.write(&format!("folder/{name}"), name.as_bytes());
    }
    bench
}

/// Lengths, dates and names of the files after `two`.
fn added(bench: &Bench) -> Vec<String> {
    let listed = bench.line("ls disk.img").out;
    listed.lines().skip(2).map(String::from).collect()
}

/// The lines of files of these lengths and names, without dates.
fn lines(files: &[(usize, &str)]) -> Vec<String> {
    let line = |(length, name): &(usize, &str)| format!("{length:>8}  1961-01-01 00:00:00  {name}");
    files.iter().map(line).collect()
}

/// Fails with status 2 and these words, and changes nothing.
fn wrong(bench: &Bench, line: &str, words: &str) {
    let before = bench.all();
    let ended = bench.line(line);
    assert_eq!((ended.status, &*ended.out), (Some(2), ""), "{line}");
    let command = line.split(' ').next().unwrap();
    let expected = format!("dheg: {command}: {words}\nUsage: dheg {command} ");
    assert!(ended.err.starts_with(&expected), "{line}: {}", ended.err);
    assert!(bench.all() == before, "{line}");
}

/// In the order of their names; folders in it are told of, hidden files are not.
#[test]
fn a_folder_without_a_listing() {
    let bench = bench();
    let notes = "dheg: folder/also: is a folder, left out\n\
                 dheg: folder/sub: is a folder, left out\n";
    let ended = bench.line("put disk.img folder");
    assert_eq!(ended, Ended::new(0, "", notes));
    let expected = lines(&[(1, "C"), (5, "a.txt"), (1, "b"), (3, "d e")]);
    assert_eq!(added(&bench), expected);
    let ended = bench.dheg(["get", "disk.img", "d e", "back"]);
    assert_eq!(ended, Ended::quiet());
    assert_eq!(bench.read("back"), b"d e");
}

#[test]
fn not_told_with_quiet() {
    let bench = bench();
    bench.quiet("put --quiet disk.img folder");
    assert_eq!(added(&bench).len(), 4);
}

/// A single file, and three or more, have their own names without their folders.
#[test]
fn files_by_their_own_names() {
    let bench = bench();
    bench.quiet("put disk.img folder/sub/inner");
    assert_eq!(added(&bench), lines(&[(9, "inner")]));
    bench.quiet("put disk.img folder/b data folder/a.txt");
    let all = [(9, "inner"), (1, "b"), (4, "data"), (5, "a.txt")];
    assert_eq!(added(&bench), lines(&all));
}

#[test]
fn two_files() {
    let bench = bench();
    bench.quiet("put disk.img folder/b data --files");
    assert_eq!(added(&bench), lines(&[(1, "b"), (4, "data")]));
}

#[test]
fn folders_and_files() {
    let bench = bench();
    bench.quiet("put disk.img folder/sub data folder/.git folder/b");
    let all = [(9, "inner"), (4, "data"), (1, "b")];
    assert_eq!(added(&bench), lines(&all));
}

#[test]
fn a_name_for_a_file() {
    let bench = bench();
    bench.quiet("put disk.img data --name New\\x00");
    bench.quiet("put --name folder -- disk.img folder/b");
    let all = [(4, "New\\x00"), (1, "folder")];
    assert_eq!(added(&bench), lines(&all));
    let words = "files needed with --name: 1, given: 2";
    wrong(&bench, "put disk.img data folder/b --name x", words);
}

/// Two words are NAME and FILE; where the first is a file too it is not for the
/// tool to choose, unless both are the same.
#[test]
fn two_words() {
    let bench = bench();
    let words = "folder/b is a path too: --files adds both, --name folder/b is a name";
    wrong(&bench, "put disk.img folder/b data", words);
    let words = "folder is a path too: --files adds both, --name folder is a name";
    wrong(&bench, "put disk.img folder data", words);
    bench.quiet("put disk.img data data");
    bench.quiet("put disk.img b folder/b");
    assert_eq!(added(&bench), lines(&[(4, "data"), (1, "b")]));
}

/// One date for all files, also for those that a listing has another date for.
#[test]
fn a_date_for_all() {
    let bench = bench();
    bench.write("folder/sub/dheg-listing.txt", b"inner\t9\t5\tother\n");
    bench.quiet("put disk.img folder/sub");
    let line = "       9  1961-01-01 00:00:05  other";
    assert_eq!(added(&bench), [line]);
    bench.quiet("rm disk.img other");
    bench.quiet("put disk.img folder/sub data folder/b --date 86400");
    let date = |line: String| line.replace("1961-01-01", "1961-01-02");
    let all = [(9, "other"), (4, "data"), (1, "b")];
    let expected: Vec<String> = lines(&all).into_iter().map(date).collect();
    assert_eq!(added(&bench), expected);
}

#[test]
fn wrong_listings() {
    let bench = bench();
    for (line, words) in [
        ("b\t1\t0", "has fewer than four columns"),
        ("b", "has fewer than four columns"),
        (
            "../data\t1\t0\tb",
            "../data is not the name of a file in this folder",
        ),
        (
            "sub/inner\t1\t0\tb",
            "sub/inner is not the name of a file in this folder",
        ),
        (
            "b\t1\t0\t\\q",
            "in the name \\q a backslash is not followed by xHH or another backslash",
        ),
        (
            "b\t1\tnever\tb",
            "never is not a date from 1961-01-01 00:00:00 to 2097-02-06 06:28:15, \
             nor its seconds, nor now",
        ),
    ] {
        let text = format!("# files\n\nb\t1\t0\tb\r\n{line}\nb\n");
        bench.write("folder/dheg-listing.txt", text.as_bytes());
        let words = format!("folder/dheg-listing.txt, line 4: {words}");
        wrong(&bench, "put -q disk.img folder", &words);
        wrong(&bench, "put -q disk.img data folder folder/b", &words);
    }
}

/// A file of the listing that is not there is not passed over.
#[test]
fn files_that_are_missing() {
    let bench = bench();
    bench.write(
        "folder/dheg-listing.txt",
        b"b\t1\t0\tb\nnone\t1\t0\tc\nC\t1\t0\td\n",
    );
    let words = "folder/none: No such file or directory (os error 2)";
    bench.fails("put -q disk.img folder", 3, words);
    let words = "none: No such file or directory (os error 2)";
    bench.fails("put -q disk.img data none folder/b", 3, words);
}

/// All files are added or none.
#[test]
fn refused() {
    let bench = bench();
    bench.write("TWO", b"new");
    bench.write("half", &noise(1, 400_000));
    bench.write("other", &noise(2, 400_000));
    let long = "n".repeat(37);
    bench.write(&long, b"data");
    let present = "disk.img: TWO: refused 13: name already present in slot 1";
    bench.fails("put disk.img data TWO folder/b", 1, present);
    bench.fails("put disk.img data TWO --files", 1, present);
    let full = "disk.img: other: refused 15: too few free blocks";
    bench.fails("put disk.img data half other", 1, full);
    let words = "refused 12: name, block, sector or data out of range";
    let line = format!("put disk.img data half {long}");
    bench.fails(&line, 1, &format!("disk.img: {long}: {words}"));
    // Two files of the call may have one name.
    bench.write("folder/sub/DATA", b"more");
    let words = "disk.img: DATA: refused 13: name already present in slot 2";
    bench.fails("put disk.img data folder/sub/DATA half", 1, words);
    bench.write("folder/two", b"more");
    let words = "disk.img: two: refused 13: name already present in slot 1";
    bench.fails("put -q disk.img folder", 1, words);
}

/// Nothing to add is no change: an HFE image stays as it is, of version 3 too.
#[test]
fn folder_without_files() {
    let bench = Bench::with_file();
    bench.set_version_3("disk.hfe");
    fs::create_dir(bench.path("empty")).unwrap();
    let before = bench.read("disk.hfe");
    bench.quiet("put disk.hfe empty");
    assert!(bench.read("disk.hfe") == before);
}

/// A pipe in a folder would be waited for without an end.
#[cfg(unix)]
#[test]
fn pipe_in_a_folder() {
    let bench = Bench::with_disk();
    fs::create_dir(bench.path("dir")).unwrap();
    bench.write("dir/file", b"data");
    let made = bench.shell().arg("mkfifo dir/pipe").status().unwrap();
    assert!(made.success());
    let note = "dheg: dir/pipe: is no plain file, left out\n";
    assert_eq!(bench.line("put disk.img dir"), Ended::new(0, "", note));
    assert_eq!(bench.line("ls disk.img").out.lines().count(), 2);
}

/// A listing that is not text would give files other names; one that names itself
/// gives none.
#[test]
fn listings_that_are_wrong_as_a_whole() {
    let bench = Bench::with_disk();
    fs::create_dir(bench.path("dir")).unwrap();
    bench.write("dir/a", b"data");
    bench.write("dir/dheg-listing.txt", b"a\t4\t0\tn\xE9m\n");
    let words = "dir/dheg-listing.txt: is not text in UTF-8";
    wrong(&bench, "put disk.img dir", words);
    wrong(&bench, "get disk.img --all dir", words);
    bench.write("dir/dheg-listing.txt", b"dheg-listing.txt\t4\t0\tb\n");
    let words = "dir/dheg-listing.txt, line 1: \
                 dheg-listing.txt is not the name of a file in this folder";
    wrong(&bench, "put disk.img dir", words);
    // A byte order mark is no part of the first name.
    bench.write("dir/dheg-listing.txt", "\u{FEFF}a\t4\t0\tb\n".as_bytes());
    bench.quiet("put disk.img dir");
    assert!(bench.line("ls disk.img").out.ends_with("  b\n"));
}
