//! The shape of `--json`: every member, its type, and how failures are told.

use serde_json::{json, Value};

use crate::bench::{Bench, Ended};

/// A bench with a disk of two files and a bad block, as `disk.img` and
/// `disk.hfe`, and as `three.hfe` of version 3.
fn bench() -> Bench {
    let bench = Bench::new();
    bench.quiet("format disk.img --name WORK\\x00* --number 7 --bad 100");
    bench.write("data", &[1; 1500]);
    bench.write("nothing", b"");
    bench.quiet("put disk.img Reel_One data --date 730944000");
    bench.quiet("put disk.img \\x00\\xFF\\x22\\\\* nothing --date 4294967295");
    bench.quiet("pack disk.img disk.hfe");
    bench.write("three.hfe", &bench.read("disk.hfe"));
    bench.set_version_3("three.hfe");
    bench
}

/// The lines of a call, which has nothing on standard error; nor with --quiet,
/// which changes nothing else either.
fn lines(bench: &Bench, line: &str, status: i32) -> Vec<Value> {
    let ended = bench.line(line);
    assert_eq!(ended, Ended::new(status, &ended.out, ""), "{line}");
    assert_eq!(bench.line(&format!("{line} --quiet")), ended, "{line}");
    assert!(ended.out.ends_with('\n'), "{line}");
    let parsed = ended.out.lines().map(serde_json::from_str);
    parsed.map(Result::unwrap).collect()
}

/// The exit status without `--json`.
fn status(bench: &Bench, line: &str) -> i32 {
    bench.line(&line.replace(" --json", "")).status.unwrap()
}

#[test]
fn checked() {
    let bench = bench();
    for (image, form) in [
        ("disk.img", "blocks"),
        ("disk.hfe", "hfe 1"),
        ("three.hfe", "hfe 3"),
    ] {
        let expected = json!({
            "image": image,
            "form": form,
            "sound": true,
            "free_sectors": 1422,
            "good_sectors": 1437,
            "bad_blocks": 1,
        });
        assert_eq!(
            lines(&bench, &format!("check --json {image}"), 0),
            [expected]
        );
    }
}

/// What ls shows of a file, as members of an object; names as they can be given.
#[test]
fn listed() {
    let bench = bench();
    let first = json!({
        "name": "Reel_One",
        "bytes": 1500,
        "date": "1984-03-01 00:00:00",
        "seconds": 730_944_000,
    });
    let second = json!({
        "name": "\\x00\\xFF\"\\\\\\x2A",
        "bytes": 0,
        "date": "2097-02-06 06:28:15",
        "seconds": 4_294_967_295_u32,
    });
    for (image, form) in [("disk.img", "blocks"), ("three.hfe", "hfe 3")] {
        let expected = |files: &[&Value]| {
            json!({
                "image": image,
                "form": form,
                "name": "WORK\\x00\\x2A",
                "number": 7,
                "files": files,
                "free_sectors": 1422,
                "good_sectors": 1437,
                "bad_blocks": 1,
            })
        };
        let line = format!("ls {image} --json");
        assert_eq!(lines(&bench, &line, 0), [expected(&[&first, &second])]);
        let line = format!("ls {image} --json --name reel*");
        assert_eq!(lines(&bench, &line, 0), [expected(&[&first])]);
        let line = format!("ls {image} --json --name none");
        assert_eq!(lines(&bench, &line, 0), [expected(&[])]);
    }
}

#[test]
fn places() {
    let bench = Bench::new();
    let expected = json!({ "block": 6, "sector": 2, "image_sector": 20 });
    assert_eq!(lines(&bench, "place 6 2 --json", 0), [expected]);
    let refused = json!({
        "number": 12,
        "places": [0, 0, 0],
        "words": "name, block, sector or data out of range",
    });
    let expected = json!({ "block": 480, "sector": 0, "refused": refused });
    assert_eq!(lines(&bench, "place --json 480 0", 1), [expected]);
    // A number that is too great for the machine stays a number.
    let line = format!("place --json 0 {}", "9".repeat(40));
    let [line] = &lines(&bench, &line, 1)[..] else {
        panic!("not one line");
    };
    assert!(line["sector"].is_u64());
    assert_eq!(line["refused"], refused);
}

/// Number, places and words of a refusal, and what helps to understand it.
#[test]
fn refused() {
    let bench = bench();
    let (disk, hfe) = (bench.read("disk.img"), bench.read("disk.hfe"));
    bench.write("length", &disk[1..]);
    bench.write("header", &disk);
    bench.damage("header", 26);
    // The map gives the free block 50 to a file that the directory does not have.
    bench.write("directory", &disk);
    bench.damage("directory", 96 + 3 * 50);
    bench.write("cut", &hfe[..512 * (2 + 49 * 3)]);
    bench.write("cut3", &hfe[..512 * (2 + 49 * 3)]);
    bench.set_version_3("cut3");
    for (image, number, places, words, note) in [
        (
            "length",
            1,
            [2, 0, 0],
            "block image or first track of a wrong length",
            Some("neither an HFE image of version 1 or 3 nor 737280 bytes"),
        ),
        (
            "header",
            8,
            [26, 0, 0],
            "disk header wrong at byte 26",
            None,
        ),
        (
            "directory",
            10,
            [47, 0, 0],
            "directory not sound at file 47",
            None,
        ),
        ("cut", 3, [3, 0, 0], "track table wrong at track 3", None),
        (
            "cut3",
            3,
            [3, 0, 0],
            "track table wrong at track 3",
            Some("HFE version 3"),
        ),
    ] {
        let mut refused = json!({ "number": number, "places": places, "words": words });
        if let Some(note) = note {
            refused["note"] = json!(note);
        }
        for command in ["check", "ls"] {
            let line = format!("{command} --json {image}");
            assert_eq!(status(&bench, &line), 1, "{line}");
            let expected = json!({ "image": image, "refused": refused });
            assert_eq!(lines(&bench, &line, 1), [expected], "{line}");
        }
    }
}

#[test]
fn not_read() {
    let bench = bench();
    for command in ["check", "ls"] {
        let line = format!("{command} none --json");
        let missing = "No such file or directory (os error 2)";
        let expected = json!({ "image": "none", "failed": missing });
        assert_eq!(status(&bench, &line), 3);
        assert_eq!(lines(&bench, &line, 3), [expected]);
    }
}

/// A line each in the order of the arguments, failures among them, and no line of
/// counts.
#[test]
fn several_images() {
    let bench = bench();
    bench.write("bad", &bench.read("disk.img"));
    bench.damage("bad", 0);
    for (command, images, expected) in [
        ("check", "three.hfe disk.img disk.hfe", 0),
        ("ls", "three.hfe disk.img disk.hfe", 0),
        ("check", "three.hfe bad disk.img disk.hfe", 1),
        ("ls", "disk.hfe bad disk.img", 1),
        ("check", "disk.hfe none bad disk.img none", 3),
        ("ls", "disk.hfe none bad disk.img none", 3),
    ] {
        let line = format!("{command} --json {images}");
        assert_eq!(status(&bench, &line), expected, "{line}");
        let lines = lines(&bench, &line, expected);
        let told: Vec<&str> = lines
            .iter()
            .map(|line| line["image"].as_str().unwrap())
            .collect();
        assert_eq!(told.join(" "), images);
        for line in lines {
            let member = match line["image"].as_str().unwrap() {
                "none" => "failed",
                "bad" => "refused",
                _ => "form",
            };
            assert!(line.get(member).is_some(), "{line}");
        }
    }
}

/// Whatever bytes the names have, every line is JSON, and what it has can be given
/// back.
#[test]
fn names_of_any_bytes() {
    let bench = Bench::with_disk();
    bench.write("data", b"data");
    let all: Vec<u8> = (0..=255).collect();
    for bytes in all.chunks(32) {
        let name: String = bytes.iter().map(|byte| format!("\\x{byte:02x}")).collect();
        bench.quiet(&format!("put disk.img {name} data"));
    }
    let [line] = &lines(&bench, "ls --json disk.img", 0)[..] else {
        panic!("not one line");
    };
    let files = line["files"].as_array().unwrap();
    assert_eq!(files.len(), 8);
    for file in files {
        let name = file["name"].as_str().unwrap();
        let ended = bench.dheg(["rm", "disk.img", "--", name]);
        assert_eq!(ended, Ended::quiet(), "{name}");
    }
}

/// A path that is not text is shown as well as it can be.
#[cfg(unix)]
#[test]
fn paths_that_are_not_text() {
    use std::ffi::OsStr;
    use std::os::unix::ffi::OsStrExt;

    let bench = bench();
    let odd = OsStr::from_bytes(b"odd\xFF\"");
    std::fs::rename(bench.path("disk.img"), bench.path("").join(odd)).unwrap();
    let ended = bench.dheg(["check".as_ref(), "--json".as_ref(), odd]);
    assert_eq!((ended.status, &*ended.err), (Some(0), ""));
    let line: Value = serde_json::from_str(&ended.out).unwrap();
    assert_eq!(line["image"], "odd\u{FFFD}\"");
}

/// A wrong command line is told in words, on standard error.
#[test]
fn wrong_command_lines() {
    let bench = bench();
    for line in [
        "check --json",
        "ls --json disk.img --name \\q",
        "place --json one 2",
    ] {
        let ended = bench.line(line);
        assert_eq!((ended.status, &*ended.out), (Some(2), ""), "{line}");
        assert!(ended.err.starts_with("dheg: "), "{line}");
    }
}
