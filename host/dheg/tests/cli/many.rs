//! Many images in one call.

use std::fs;

use crate::bench::{Bench, Ended};

const MISSING: &str = "No such file or directory (os error 2)";

/// A bench with block images of different disks, and HFE images of them.
fn bench(names: &[&str]) -> Bench {
    let bench = Bench::new();
    fs::create_dir(bench.path("sub")).unwrap();
    for (number, name) in names.iter().enumerate() {
        bench.quiet(&format!("format {name}.img --number {number}"));
        bench.quiet(&format!("pack {name}.img {name}.hfe"));
    }
    bench
}

/// The folder is made, with those above it; each result has its input's name
/// without the last extension, and the bytes of a single call.
#[test]
fn unpacked_into_a_folder() {
    let bench = bench(&["a", "sub/b", "c.v2", "d"]);
    fs::rename(bench.path("d.hfe"), bench.path("d")).unwrap();
    let counts = "4 images: 4 unpacked, 0 refused, 0 not read or written\n";
    assert_eq!(
        bench.line("unpack a.hfe sub/b.hfe c.v2.hfe d --to out/deep"),
        Ended::new(0, counts, "")
    );
    let expected = ["a.img", "b.img", "c.v2.img", "d.img"];
    assert_eq!(bench.names("out/deep"), expected);
    for name in ["a", "sub/b", "c.v2", "d"] {
        let result = format!("out/deep/{}.img", name.trim_start_matches("sub/"));
        let expected = bench.read(&format!("{name}.img"));
        assert!(bench.read(&result) == expected, "{name}");
    }
}

#[test]
fn packed_into_a_folder() {
    let bench = bench(&["a", "sub/b", "c.v2"]);
    fs::create_dir(bench.path("out")).unwrap();
    bench.write("out/a.hfe", b"old");
    let counts = "3 images: 3 packed, 0 refused, 0 not read or written\n";
    assert_eq!(
        bench.line("pack a.img sub/b.img c.v2.img --to out"),
        Ended::new(0, counts, "")
    );
    assert_eq!(bench.names("out"), ["a.hfe", "b.hfe", "c.v2.hfe"]);
    for name in ["a", "sub/b", "c.v2"] {
        let result = format!("out/{}.hfe", name.trim_start_matches("sub/"));
        let expected = bench.read(&format!("{name}.hfe"));
        assert!(bench.read(&result) == expected, "{name}");
    }
}

/// A single input is told of as without the folder: no counts.
#[test]
fn one_input_into_a_folder() {
    let bench = bench(&["a"]);
    bench.quiet("unpack a.hfe --to out");
    bench.quiet("pack a.img --to out");
    assert_eq!(bench.names("out"), ["a.hfe", "a.img"]);
    assert!(bench.read("out/a.img") == bench.read("a.img"));
}

/// Messages stand in the order of the arguments, whichever image was done first:
/// those that are refused at once do not come before those that take long.
#[test]
fn a_failed_one_does_not_stop_the_others() {
    let bench = bench(&["a", "b", "c", "d", "e"]);
    for name in ["a.hfe", "c.hfe", "e.hfe"] {
        bench.set_version_3(name);
    }
    bench.write("b.hfe", b"HXCPICFE");
    let short = "dheg: b.hfe: refused 1: HFE image of a wrong length\n";
    let told = |name: &str| format!("dheg: {name}: HFE version 3\n");
    let ended = bench.line("unpack a.hfe b.hfe c.hfe d.hfe e.hfe --to out");
    let counts = "5 images: 4 unpacked, 1 refused, 0 not read or written\n";
    let err = [&told("a.hfe"), short, &told("c.hfe"), &told("e.hfe")].concat();
    assert_eq!(ended, Ended::new(1, counts, &err));
    assert_eq!(bench.names("out"), ["a.img", "c.img", "d.img", "e.img"]);
    for name in ["a", "c", "d", "e"] {
        let [result, expected] = ["out/", ""].map(|at| bench.read(&format!("{at}{name}.img")));
        assert!(result == expected, "{name}");
    }
    // One that is not read decides over one that is refused.
    let ended = bench.line("unpack a.hfe none.hfe b.hfe d.hfe --to more");
    let counts = "4 images: 2 unpacked, 1 refused, 1 not read or written\n";
    let missing = format!("dheg: none.hfe: {MISSING}\n");
    let err = [&told("a.hfe"), &missing, short].concat();
    assert_eq!(ended, Ended::new(3, counts, &err));
    assert_eq!(bench.names("more"), ["a.img", "d.img"]);
}

#[test]
fn a_failed_one_of_pack() {
    let bench = bench(&["a", "b", "c"]);
    bench.write("b.img", b"short");
    let words = "b.img: refused 1: block image or first track of a wrong length";
    let counts = "3 images: 2 packed, 1 refused, 0 not read or written\n";
    assert_eq!(
        bench.line("pack a.img b.img c.img --to out"),
        Ended::new(1, counts, &format!("dheg: {words}\n"))
    );
    assert_eq!(bench.names("out"), ["a.hfe", "c.hfe"]);
    bench.fails("pack b.img --to out", 1, words);
}

/// Which of the two would stay is not for chance to decide.
#[test]
fn two_inputs_for_one_result() {
    let bench = bench(&["a", "b", "sub/a"]);
    for (line, result) in [
        ("unpack a.hfe b.hfe sub/a.hfe --to out", "out/a.img"),
        ("unpack a.hfe a.hfe --to out", "out/a.img"),
        ("pack a.img b.img a.hfe --to out", "out/a.hfe"),
    ] {
        let before = bench.all();
        let ended = bench.line(line);
        assert_eq!((ended.status, &*ended.out), (Some(2), ""), "{line}");
        let command = line.split(' ').next().unwrap();
        let words = format!("dheg: {command}: two results would be {result}\nUsage: ");
        assert!(ended.err.starts_with(&words), "{line}: {}", ended.err);
        assert!(bench.all() == before, "{line}");
        assert!(!bench.path("out").exists(), "{line}");
    }
}

#[test]
fn folders_that_cannot_be_written() {
    let bench = bench(&["a", "b"]);
    bench.write("file", b"data");
    for folder in ["file", "file/deep"] {
        let before = bench.all();
        let ended = bench.line(&format!("unpack a.hfe b.hfe --to {folder}"));
        assert_eq!((ended.status, &*ended.out), (Some(3), ""), "{folder}");
        let words = format!("dheg: {folder}: ");
        assert!(ended.err.starts_with(&words), "{}", ended.err);
        assert_eq!(ended.err.lines().count(), 1);
        assert!(bench.all() == before, "{folder}");
    }
    // Only one of the results cannot be written.
    fs::create_dir_all(bench.path("out/a.img")).unwrap();
    let counts = "2 images: 1 unpacked, 0 refused, 1 not read or written\n";
    assert_eq!(
        bench.line("unpack a.hfe b.hfe --to out"),
        Ended::new(3, counts, "dheg: out/a.img: is a folder\n")
    );
    assert_eq!(bench.names("out"), ["a.img", "b.img"]);
}

/// Forty images, of which some HFE images early in the order take longest: the
/// lines stand in the order of the arguments, which is not that of the names.
#[test]
fn forty_images() {
    let bench = Bench::with_disk();
    bench.quiet("pack disk.img disk.hfe");
    let disk = bench.read("disk.img");
    let order: Vec<usize> = (0..40).map(|index| index * 7 % 40).collect();
    let mut images: Vec<String> = vec![String::from("disk.hfe")];
    for number in &order {
        let mut numbered = disk.clone();
        numbered[15] = u8::try_from(*number).unwrap();
        images.push(format!("d{number:02}.img"));
        bench.write(images.last().unwrap(), &numbered);
    }
    bench.damage("d21.img", 0);
    fs::remove_file(bench.path("d09.img")).unwrap();
    let lines = |line: fn(&str) -> String| -> String {
        let good = images.iter().filter(|image| !image.contains("d21."));
        let good = good.filter(|image| !image.contains("d09."));
        good.map(|image| line(image)).collect()
    };
    let refused = "dheg: d21.img: refused 8: disk header wrong at byte 0\n";
    let missing = format!("dheg: d09.img: {MISSING}\n");
    // 7 * 3 is 21, and 7 * 7 is 9 over 40.
    let err = format!("{refused}{missing}");

    let ended = bench.dheg(["check"].into_iter().chain(images.iter().map(|i| &**i)));
    let checked = lines(|image| format!("{image}: sound\n"));
    let counts = "41 images: 39 sound, 1 refused, 1 not read\n";
    assert_eq!(ended, Ended::new(3, &format!("{checked}{counts}"), &err));

    let ended = bench.dheg(["ls"].into_iter().chain(images.iter().map(|i| &**i)));
    let listed = lines(|image| {
        let number: usize = image[1..3].parse().unwrap_or(0);
        format!("{image}: disk \"\", number {number}, 0 files, 1434 of 1440 sectors free\n")
    });
    let counts = "41 images: 39 listed, 1 refused, 1 not read\n";
    assert_eq!(ended, Ended::new(3, &format!("{listed}{counts}"), &err));
}

/// Two files that a pattern of the shell gave are not taken for input and result:
/// the second would be lost.
#[test]
fn result_that_looks_like_an_input() {
    let bench = bench(&["a", "b"]);
    for (line, lost) in [
        ("unpack a.hfe b.hfe", "b.hfe"),
        ("pack a.img b.img", "b.img"),
    ] {
        let before = bench.all();
        let ended = bench.line(line);
        assert_eq!((ended.status, &*ended.out), (Some(2), ""), "{line}");
        let words = format!("{lost} looks like an input and would be lost; two inputs need --to");
        assert!(ended.err.contains(&words), "{}", ended.err);
        assert!(bench.all() == before, "{line}");
    }
    // What is no input is replaced, whatever it was.
    bench.write("b.hfe", b"old");
    bench.quiet("unpack a.hfe b.hfe");
    assert!(bench.read("b.hfe") == bench.read("a.img"));
}
