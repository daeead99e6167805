//! Many removes and adds by a list: dheg batch.

use support::noise::noise;

use crate::bench::{Bench, Ended};

/// A disk with the file `old`, and files to put.
fn bench() -> Bench {
    let bench = Bench::with_disk();
    bench.write("one", &noise(1, 5000));
    bench.write("two", &noise(2, 100));
    bench.write("new words.txt", b"curtain");
    bench.quiet("put disk.img old two");
    bench
}

/// Runs a batch of this list on `disk.img`.
fn batch(bench: &Bench, list: &str) -> Ended {
    bench.write("cues.txt", list.as_bytes());
    bench.line("batch disk.img cues.txt")
}

/// Asserts that a batch of this list fails so and changes nothing.
fn fails(bench: &Bench, list: &str, status: i32, err: &str) {
    bench.write("cues.txt", list.as_bytes());
    bench.fails("batch disk.img cues.txt", status, err);
}

/// The disk after these commands, one by one, which are all done.
fn one_by_one(bench: &Bench, lines: &[&[&str]]) -> Vec<u8> {
    for line in lines {
        assert_eq!(bench.dheg(*line), Ended::quiet(), "{line:?}");
    }
    bench.read("disk.img")
}

/// A batch leaves what its items leave as single commands (§8.19).
#[test]
fn the_same_as_one_by_one() {
    let list = "\
# cues of the second act

put \"first one\" one --date \"1984-01-12 10:00:00\"
rm OLD
\tput old   \"new words.txt\"\r
put \\x00 two --date 4294967295
  # done
";
    let bench = bench();
    let before = bench.read("disk.img");
    assert_eq!(batch(&bench, list), Ended::quiet());
    let batched = bench.read("disk.img");
    bench.write("disk.img", &before);
    let put = ["put", "disk.img", "first one", "one", "--date"];
    let date = ["1984-01-12 10:00:00"];
    let expected = one_by_one(
        &bench,
        &[
            &[&put[..], &date].concat(),
            &["rm", "disk.img", "old"],
            &["put", "disk.img", "old", "new words.txt"],
            &["put", "disk.img", "\\x00", "two", "--date", "4294967295"],
        ],
    );
    assert!(batched == expected);
}

/// A refused item is told with its line and number; the items before it stand and
/// those after it are not tried (§8.19).
#[test]
fn refused_items() {
    let bench = bench();
    let before = bench.read("disk.img");
    let list = "rm old\n\n# again\nput new one\nput NEW two\nrm new\n";
    let words = "disk.img: NEW: refused 13: name already present in slot 1 \
                 (cues.txt, line 5, item 3 of 4; the 2 items before it are done)";
    assert_eq!(batch(&bench, list), Ended::failed(1, words));
    let batched = bench.read("disk.img");
    bench.write("disk.img", &before);
    let expected = one_by_one(
        &bench,
        &[
            &["rm", "disk.img", "old"],
            &["put", "disk.img", "new", "one"],
        ],
    );
    assert!(batched == expected);
    let words = "disk.img: none: refused 14: no file of this name \
                 (cues.txt, line 2, item 2 of 2; the item before it is done)";
    assert_eq!(batch(&bench, "rm new\nrm none"), Ended::failed(1, words));
    assert!(bench.line("ls disk.img").out.contains(", 0 files, "));
}

/// Where the first item is refused nothing is changed (§8.19).
#[test]
fn refused_first_items() {
    let bench = bench();
    let at = "(cues.txt, line 2, item 1 of 2; nothing is changed)";
    let long = "n".repeat(300);
    for (item, words) in [
        ("rm none", "none: refused 14: no file of this name"),
        (
            "put Old one",
            "Old: refused 13: name already present in slot 1",
        ),
        ("put big disk.img", "big: refused 15: too few free blocks"),
        (
            "rm \"\"",
            ": refused 12: name, block, sector or data out of range",
        ),
        (
            &format!("rm {long}"),
            &format!("{long}: refused 12: name, block, sector or data out of range"),
        ),
    ] {
        let list = format!("\n{item}\nput new one");
        fails(&bench, &list, 1, &format!("disk.img: {words} {at}"));
    }
    bench.damage("disk.img", 20);
    let words = "disk.img: old: refused 11: free-sector word does not fit the map";
    fails(&bench, "\nrm old\nrm old", 1, &format!("{words} {at}"));
}

/// The length of the image is judged for the whole call (§7.1), also with an empty
/// list (§8.19).
#[test]
fn images_of_a_wrong_length() {
    let bench = bench();
    bench.write("disk.img", &bench.read("disk.img")[1..]);
    let words = "disk.img: refused 1: block image or first track of a wrong length \
                 (neither an HFE image of version 1 or 3 nor 737280 bytes)";
    for list in ["", "rm old", "rm none\nput new one"] {
        fails(&bench, list, 1, words);
    }
}

/// A list without items is done on a disk that is not sound (§8.19), and nothing
/// is written.
#[test]
fn empty_lists() {
    let bench = bench();
    bench.damage("disk.img", 0);
    let before = bench.read("disk.img");
    for list in ["", "\n\n", "# rm old\n \t\r\n#\n"] {
        assert_eq!(batch(&bench, list), Ended::quiet());
    }
    assert!(bench.read("disk.img") == before);
}

/// Wrong lists are told with their line before anything is changed.
#[test]
fn wrong_lists() {
    let bench = bench();
    for (line, words) in [
        ("ls", "there is no step ls"),
        ("rm", "rm needs NAME"),
        ("put a", "put needs NAME and FILE"),
        ("rm a b", "b is too much"),
        ("rm \"a", "a double quote has no second"),
        (
            "rm \\y",
            "in the name \\y a backslash is not followed by xHH or another backslash",
        ),
    ] {
        bench.write("cues.txt", format!("rm old\n{line}\nls").as_bytes());
        let before = bench.all();
        let ended = bench.line("batch disk.img cues.txt");
        let usage = "Usage: dheg batch IMAGE LISTFILE\n";
        let expected = format!("dheg: batch: cues.txt, line 2: {words}\n{usage}");
        assert_eq!(ended, Ended::new(2, "", &expected));
        assert!(bench.all() == before, "{line} changed a file");
    }
}

/// All files are read before the image is changed.
#[test]
fn missing_files() {
    let bench = bench();
    let missing = "No such file or directory (os error 2)";
    for list in [
        "rm old\nput new one\nput more none",
        "rm none\n\nput more none",
    ] {
        let words = format!("cues.txt, line 3: none: {missing}");
        fails(&bench, list, 3, &words);
    }
}

/// A file of an item is looked for from the current folder, not from the list's.
#[test]
fn files_of_the_current_folder() {
    let bench = bench();
    std::fs::create_dir(bench.path("lists")).unwrap();
    bench.write("lists/cues.txt", b"put new one\nput other lists/cues.txt\n");
    bench.quiet("batch disk.img lists/cues.txt");
    bench.quiet("get disk.img new back");
    assert!(bench.read("back") == bench.read("one"));
}

/// Dozens of cue files come and go at a save (§8.19).
#[test]
fn dozens_of_files() {
    let bench = bench();
    let names: Vec<String> = (0..60).map(|index| format!("cue_{index}")).collect();
    let puts: String = names
        .iter()
        .map(|name| format!("put {name} two\n"))
        .collect();
    let rms: String = names.iter().map(|name| format!("rm {name}\n")).collect();
    assert_eq!(batch(&bench, &puts), Ended::quiet());
    let listed = bench.line("ls disk.img").out;
    assert!(listed.contains(", 61 files, "), "{listed}");
    assert_eq!(batch(&bench, &format!("{rms}{puts}{rms}")), Ended::quiet());
    let expected = "disk.img: disk \"\", number 0, 1 file, 1425 of 1440 sectors free\n";
    assert!(bench.line("ls disk.img").out.starts_with(expected));
}

/// A list may come through a pipe, and one that does not end is no list.
#[cfg(unix)]
#[test]
fn lists_from_devices() {
    let bench = bench();
    let mut shell = bench.shell();
    shell.arg("echo rm old | dheg batch disk.img /dev/stdin");
    assert_eq!(Ended::from(shell.output().unwrap()), Ended::quiet());
    assert!(bench.line("ls disk.img").out.contains(", 0 files, "));
    let words = "/dev/zero: is too long for a list";
    bench.fails("batch disk.img /dev/zero", 3, words);
}
