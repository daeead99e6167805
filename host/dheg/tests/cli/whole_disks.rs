//! All files of a disk into a folder, and from there onto a disk.

use std::fs;

use support::noise::noise;

use crate::bench::{Bench, Ended};

/// Names as they are given, and those of their files in a folder. Some would lead
/// out of the folder, stand for other files, or be those of devices.
const NAMES: [(&str, &str); 24] = [
    ("boot", "boot"),
    ("Reel_One", "Reel_One"),
    ("two words", "two%20words"),
    ("\\x20ends\\x20", "%20ends%20"),
    ("a/b", "a%2Fb"),
    ("/etc/passwd", "%2Fetc%2Fpasswd"),
    ("..", "%2E%2E"),
    ("../x", "%2E.%2Fx"),
    (".", "%2E"),
    ("%2E%2E", "%252E%252E"),
    (".hidden", "%2Ehidden"),
    ("\\x2A", "%2A"),
    ("\\x3F", "%3F"),
    ("a\\\\b", "a%5Cb"),
    ("\\x00\\x09\\x0A\\x0D\\x1B", "%00%09%0A%0D%1B"),
    ("\\x80\\xFF", "%80%FF"),
    ("caf\\xC3\\xA9", "caf%C3%A9"),
    ("CON", "%43ON"),
    ("nul.txt", "%6Eul.txt"),
    ("lpt1", "%6Cpt1"),
    ("dheg-listing.txt", "%64heg-listing.txt"),
    ("-rf", "%2Drf"),
    ("a.", "a%2E"),
    ("# no comment", "%23%20no%20comment"),
];

/// The data of the file with this number.
fn data(number: usize) -> Vec<u8> {
    let lengths = [0, 1, 1472, 1473, 5000, 511];
    let seed = u32::try_from(number).unwrap();
    noise(seed, lengths[number % lengths.len()])
}

/// A date for the file with this number: from the first one to late ones.
fn date(number: usize) -> u64 {
    u64::try_from(number).unwrap() * 186_737_708
}

/// A bench with the disk `disk.img` that has all these names, which differ in
/// data and date.
fn bench() -> Bench {
    let bench = Bench::with_disk();
    let mut list = String::new();
    for (number, (name, _)) in NAMES.iter().enumerate() {
        bench.write(&format!("data{number}"), &data(number));
        let date = date(number);
        list.push_str(&format!("put \"{name}\" data{number} --date {date}\n"));
    }
    bench.write("list", list.as_bytes());
    bench.quiet("batch disk.img list");
    bench
}

/// What ls says of an image, but for the image's name.
fn listed(bench: &Bench, image: &str) -> String {
    let ended = bench.line(&format!("ls {image}"));
    assert_eq!((ended.status, &*ended.err), (Some(0), ""));
    ended.out.replacen(image, "", 1)
}

/// Every file is written under a name that leads nowhere else, beside the listing.
#[test]
fn safe_names() {
    let bench = bench();
    let before = bench.all();
    bench.quiet("get disk.img --all out/folder");
    assert!(bench.all() == before);
    assert_eq!(bench.names("out"), ["folder"]);
    let mut expected: Vec<&str> = NAMES.iter().map(|(_, file)| *file).collect();
    expected.push("dheg-listing.txt");
    expected.sort();
    assert_eq!(bench.names("out/folder"), expected);
    for (number, (name, file)) in NAMES.iter().enumerate() {
        let written = bench.read(&format!("out/folder/{file}"));
        assert!(written == data(number), "{name}");
    }
}

/// A line for each file, in the order of the disk, with the whole entry.
#[test]
fn the_listing() {
    let bench = bench();
    bench.quiet("get disk.img --all folder");
    let listing = String::from_utf8(bench.read("folder/dheg-listing.txt")).unwrap();
    let (comments, lines): (Vec<&str>, Vec<&str>) =
        listing.lines().partition(|line| line.starts_with('#'));
    assert!(comments.contains(&"# file\tbytes\tdate\tname\tentry"));
    assert_eq!(lines.len(), NAMES.len());
    for (number, (line, (name, file))) in lines.iter().zip(NAMES).enumerate() {
        let columns: Vec<&str> = line.split('\t').collect();
        let [at, bytes, _, shown, entry] = columns[..] else {
            panic!("{line}");
        };
        assert_eq!(at, file);
        assert_eq!(bytes, data(number).len().to_string(), "{name}");
        // A dash at the start is shown so that it is no option.
        let name = name
            .strip_prefix('-')
            .map_or(String::from(name), |rest| format!("\\x2D{rest}"));
        assert_eq!(shown, name);
        // The date has four bytes, from byte 52 of the entry on.
        assert_eq!(entry.len(), 128);
        assert_eq!(entry[104..112], format!("{:08x}", date(number)), "{name}");
    }
    assert!(lines[1].starts_with("Reel_One\t1\t1966-12-02 07:35:08\tReel_One\t"));
}

/// The files of the disk come back in their order, with names, spelling, dates and
/// data: the new disk is the same to the byte.
#[test]
fn there_and_back() {
    let bench = bench();
    bench.quiet("get disk.img --all folder");
    bench.quiet("format copy.img");
    bench.quiet("put copy.img folder");
    assert_eq!(listed(&bench, "copy.img"), listed(&bench, "disk.img"));
    assert!(bench.read("copy.img") == bench.read("disk.img"));
}

#[test]
fn there_and_back_in_hfe_images() {
    let bench = bench();
    bench.quiet("pack disk.img disk.hfe");
    bench.quiet("get disk.hfe --all folder");
    bench.quiet("format copy.img");
    bench.quiet("pack copy.img copy.hfe");
    bench.quiet("put copy.hfe folder");
    assert!(bench.read("copy.hfe") == bench.read("disk.hfe"));
}

/// A disk on which files came and went, with bad blocks: slots and blocks of the
/// copy are others, names, dates and data are the same.
#[test]
fn disks_that_were_in_use() {
    let bench = bench();
    bench.quiet("format used.img --bad 20,21 --name USED");
    bench.quiet("batch used.img list");
    bench.quiet("rm used.img reel_one boot a/b");
    bench.quiet("put used.img late data4 --date 77");
    bench.quiet("get used.img --all folder");
    bench.quiet("format copy.img");
    bench.quiet("put copy.img folder");
    let files = |image| -> Vec<String> {
        let listed = listed(&bench, image);
        listed.lines().skip(1).map(String::from).collect()
    };
    assert_eq!(files("copy.img"), files("used.img"));
    assert_eq!(files("copy.img").len(), NAMES.len() - 2);
    for line in files("used.img") {
        let name = &line[31..];
        let data = ["used.img", "copy.img"].map(|image| {
            let ended = bench.dheg(["get", "--", image, name, "back"]);
            assert_eq!(ended, Ended::quiet(), "{name}");
            bench.read("back")
        });
        assert!(data[0] == data[1], "{name}");
    }
}

#[test]
fn several_hundred_files() {
    let bench = Bench::with_disk();
    let mut list = String::new();
    for number in 0..400 {
        let file = format!("data{}", number % 9);
        bench.write(&file, &noise(number % 9, 150));
        let date = number * 10_000_019;
        list.push_str(&format!("put cue_{number} {file} --date {date}\n"));
    }
    bench.write("list", list.as_bytes());
    bench.quiet("batch disk.img list");
    bench.quiet("get disk.img --all folder");
    assert_eq!(bench.names("folder").len(), 401);
    bench.quiet("format copy.img");
    bench.quiet("put copy.img folder");
    assert!(bench.line("ls copy.img").out.contains(", 400 files, "));
    assert!(bench.read("copy.img") == bench.read("disk.img"));
}

/// A disk without files gives a listing without lines, and that no files.
#[test]
fn empty_disks() {
    let bench = Bench::with_disk();
    let before = bench.read("disk.img");
    bench.quiet("get disk.img --all folder");
    assert_eq!(bench.names("folder"), ["dheg-listing.txt"]);
    bench.quiet("put disk.img folder");
    assert!(bench.read("disk.img") == before);
}

/// Files of the folder may be changed, and others be set beside them: the changed
/// one keeps its name and date, the other ones come last.
#[test]
fn folders_that_were_changed() {
    let bench = bench();
    bench.quiet("get disk.img --all folder");
    bench.write("folder/%43ON", b"changed");
    bench.write("folder/added", b"more");
    bench.quiet("format copy.img");
    bench.quiet("put copy.img folder");
    let listed = listed(&bench, "copy.img");
    let lines: Vec<&str> = listed.lines().skip(1).collect();
    assert_eq!(lines.len(), NAMES.len() + 1);
    assert_eq!(lines[17], "       7  2061-08-06 08:57:16  CON");
    assert_eq!(lines[24], "       4  1961-01-01 00:00:00  added");
    bench.quiet("get copy.img con back");
    assert_eq!(bench.read("back"), b"changed");
}

/// What was there in the folder stays, but for files of the same names.
#[test]
fn folders_that_are_there() {
    let bench = bench();
    fs::create_dir(bench.path("folder")).unwrap();
    bench.write("folder/boot", b"old");
    bench.write("folder/other", b"of value");
    // Nothing is written over what no earlier call wrote.
    bench.fails(
        "get disk.img --all folder",
        3,
        "folder/boot: is there already, --force writes over it",
    );
    assert_eq!(bench.names("folder"), ["boot", "other"]);
    assert_eq!(bench.read("folder/boot"), b"old");
    bench.quiet("get disk.img --all folder --force");
    assert!(bench.read("folder/boot") == data(0));
    assert_eq!(bench.read("folder/other"), b"of value");
    bench.write("folder/boot", b"changed");
    bench.quiet("get disk.img --all folder");
    assert!(bench.read("folder/boot") == data(0));
    bench.fails(
        "get disk.img --all data1",
        3,
        "data1: File exists (os error 17)",
    );
}

/// Several calls may write to one folder: the listing has the files of all, each
/// once, as long as they are there.
#[test]
fn several_calls_for_one_folder() {
    let bench = bench();
    bench.quiet("get disk.img a* folder");
    bench.quiet("get disk.img *.* folder");
    bench.quiet("get disk.img A/? folder");
    fs::remove_file(bench.path("folder/%6Eul.txt")).unwrap();
    bench.quiet("get disk.img con folder/con");
    fs::remove_file(bench.path("folder/con")).unwrap();
    bench.quiet("get disk.img two* folder");
    bench.quiet("format copy.img");
    bench.quiet("put copy.img folder");
    let files = |image: &str, options: &str| -> Vec<String> {
        let listed = bench.line(&format!("ls {image}{options}")).out;
        let mut lines: Vec<String> = listed.lines().skip(1).map(String::from).collect();
        lines.sort();
        lines
    };
    let mut expected = files("disk.img", " --name a* --name *.* --name two*");
    expected.retain(|line| !line.ends_with("  nul.txt"));
    assert_eq!(expected.len(), 9);
    assert_eq!(files("copy.img", ""), expected);
}
