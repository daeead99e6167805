//! Commands on block images and on HFE images of version 1 and 3 alike.

use std::sync::OnceLock;

use dhegluubin::{HFE_LEN, IMAGE_LEN};
use support::codes::with_codes;
use support::noise::{noise, Generator};

use crate::bench::{Bench, Ended};

/// The same disk as `disk.img` in HFE images: of version 1, and of version 3
/// without and with codes.
const HFE_IMAGES: [&str; 3] = ["one.hfe", "plain.hfe", "coded.hfe"];

/// Where track 3 begins in a written HFE image.
const TRACK_3: usize = 512 * (2 + 49 * 3);

/// What is told of a file of neither kind.
const NEITHER: &str = "refused 1: block image or first track of a wrong length \
                       (neither an HFE image of version 1 or 3 nor 737280 bytes)";

/// A bench with the images, and files to add.
fn bench() -> Bench {
    let bench = Bench::new();
    bench.quiet("format disk.img --name WORK --number 7 --bad 100,200");
    bench.write("data", &noise(1, 5000));
    bench.write("more", &noise(2, 1472));
    bench.write("nothing", b"");
    bench.write("great", &noise(3, IMAGE_LEN));
    bench.quiet("put disk.img One data --date 730944000");
    bench.quiet("put disk.img two more --date 4294967295");
    bench.quiet("put disk.img three nothing");
    bench.quiet("pack disk.img one.hfe");
    let hfe = bench.read("one.hfe");
    bench.write("plain.hfe", &hfe);
    bench.set_version_3("plain.hfe");
    // The disk is the same in all tests, so that codes are set in it once.
    static CODED: OnceLock<Vec<u8>> = OnceLock::new();
    let coded = CODED.get_or_init(|| with_codes(&hfe, 60, &mut Generator::new(1)));
    bench.write("coded.hfe", coded);
    bench
}

/// What is told where an HFE image was changed.
fn told(image: &str) -> String {
    match image {
        "plain.hfe" | "coded.hfe" => {
            format!("dheg: {image}: HFE version 3, written as HFE version 1\n")
        }
        _ => String::new(),
    }
}

/// Runs a line, `@` in it for the image, on the block image and on each HFE
/// image; all tell the same, and the HFE images become what the block image
/// becomes, of version 1.
fn changes_alike(line: &str, status: i32, words: &str) {
    let bench = bench();
    bench.write("list", b"rm ONE\nput new data --date 9\nput One more\n");
    bench.write("refused", b"rm one\nput new data\nrm none\nrm two\n");
    for image in ["disk.img"].iter().chain(&HFE_IMAGES) {
        let ended = bench.line(&line.replace('@', image));
        let err = format!("{}{}", told(image), words.replace('@', image));
        assert_eq!(ended, Ended::new(status, "", &err), "{line}: {image}");
    }
    bench.quiet("pack disk.img expected.hfe");
    bench.quiet("unpack expected.hfe out.img");
    assert!(bench.read("out.img") == bench.read("disk.img"));
    for image in HFE_IMAGES {
        let same = bench.read(image) == bench.read("expected.hfe");
        assert!(same, "{line}: {image}");
    }
}

#[test]
fn files_added() {
    changes_alike("put @ new data --date 5", 0, "");
    changes_alike("put @ data more --files", 0, "");
}

#[test]
fn files_removed() {
    changes_alike("rm @ ONE", 0, "");
    changes_alike("rm @ t*", 0, "");
}

#[test]
fn batches() {
    changes_alike("batch @ list", 0, "");
}

/// What comes before the refused item is written, also in an HFE image.
#[test]
fn refused_batches() {
    let words = "dheg: @: none: refused 14: no file of this name \
                 (refused, line 3, item 3 of 4; the 2 items before it are done)\n";
    changes_alike("batch @ refused", 1, words);
}

#[test]
fn files_copied() {
    changes_alike("cp @ one @ copy", 0, "");
    changes_alike("cp disk.img two @ copy", 0, "");
}

#[test]
fn not_told_with_quiet() {
    for line in ["rm @ one", "put @ new data", "cp @ one @ two_2"] {
        let bench = bench();
        for image in HFE_IMAGES {
            bench.quiet(&format!("-q {}", line.replace('@', image)));
            bench.quiet(&format!("unpack {image} out.img"));
        }
    }
}

/// check, ls and get tell the same of all images but for their names.
#[test]
fn reading() {
    let bench = bench();
    let checked = "@: sound, 2 bad blocks\n";
    let listed = "\
@: disk \"WORK\", number 7, 3 files, 1410 of 1434 sectors free, 2 bad blocks
    5000  1984-03-01 00:00:00  One
    1472  2097-02-06 06:28:15  two
       0  1961-01-01 00:00:00  three
";
    for image in ["disk.img"].iter().chain(&HFE_IMAGES) {
        for (command, out) in [("check", checked), ("ls", listed)] {
            let ended = bench.line(&format!("{command} {image}"));
            let expected = Ended::new(0, &out.replace('@', image), "");
            assert_eq!(ended, expected, "{command} {image}");
        }
        for (name, file) in [("one", "data"), ("TWO", "more"), ("three", "nothing")] {
            bench.quiet(&format!("get {image} {name} back"));
            assert!(bench.read("back") == bench.read(file), "{image}: {name}");
        }
        bench.quiet(&format!("get {image} --all all-{image}"));
        for name in ["One", "two", "three", "dheg-listing.txt"] {
            let [one, other] = [image, "disk.img"].map(|of| format!("all-{of}/{name}"));
            assert!(bench.read(&one) == bench.read(&other), "{one}");
        }
    }
}

/// Nothing is written, nothing is told of a version.
#[test]
fn refused_changes() {
    let bench = bench();
    bench.write("list", b"rm none\nrm one\n");
    bench.write("empty", b"# nothing\n");
    let missing = "none: refused 14: no file of this name";
    for image in ["disk.img"].iter().chain(&HFE_IMAGES) {
        for (line, words) in [
            (
                "put @ ONE data",
                "ONE: refused 13: name already present in slot 1",
            ),
            ("put @ big great", "big: refused 15: too few free blocks"),
            ("rm @ none", missing),
            ("rm @ one none two", missing),
            ("rm @ x*", "x*: refused 14: no file of this name"),
            ("get @ none back", missing),
            ("cp @ none @ copy", missing),
            (
                "cp disk.img one @ Two",
                "Two: refused 13: name already present in slot 2",
            ),
            (
                "batch @ list",
                "none: refused 14: no file of this name \
                 (list, line 1, item 1 of 2; nothing is changed)",
            ),
        ] {
            let line = line.replace('@', image);
            bench.fails(&line, 1, &format!("{image}: {words}"));
        }
        let before = bench.read(image);
        bench.quiet(&format!("batch {image} empty"));
        assert!(bench.read(image) == before, "{image}");
    }
}

/// The name of the file says nothing of what it is, and it stays what it is.
#[test]
fn told_apart_by_what_they_begin_with() {
    let bench = bench();
    bench.write("x.img", &bench.read("one.hfe"));
    bench.write("x.hfe", &bench.read("disk.img"));
    for (image, length) in [("x.img", HFE_LEN), ("x.hfe", IMAGE_LEN)] {
        let sound = format!("{image}: sound, 2 bad blocks\n");
        assert_eq!(
            bench.line(&format!("check {image}")),
            Ended::new(0, &sound, "")
        );
        bench.quiet(&format!("rm {image} one"));
        assert_eq!(bench.read(image).len(), length, "{image}");
        let listed = bench.line(&format!("ls {image}")).out;
        assert!(listed.contains(", 2 files, "), "{listed}");
    }
}

#[test]
fn files_that_are_neither() {
    let bench = bench();
    bench.write("list", b"rm one");
    let (hfe, disk) = (bench.read("one.hfe"), bench.read("disk.img"));
    for bytes in [
        &b""[..],
        b"HXCPICF",
        &hfe[1..],
        &[&b"HXCHFEV4"[..], &hfe[8..]].concat(),
        &disk[1..],
        &[&disk[..], b"\0"].concat(),
    ] {
        bench.write("odd.hfe", bytes);
        for line in [
            "check odd.hfe",
            "ls odd.hfe",
            "get odd.hfe one back",
            "get odd.hfe --all back",
            "get odd.hfe o* back",
            "put odd.hfe new data",
            "rm odd.hfe one",
            "rm odd.hfe o*",
            "batch odd.hfe list",
            "cp odd.hfe one disk.img copy",
            "cp disk.img one odd.hfe",
        ] {
            bench.fails(line, 1, &format!("odd.hfe: {NEITHER}"));
        }
    }
    assert!(!bench.path("back").exists());
}

/// What begins as an HFE image is refused as one, also with the length of a block
/// image.
#[test]
fn damaged_hfe_images() {
    let bench = bench();
    let good = bench.read("one.hfe");
    let mut wiped = good.clone();
    wiped[TRACK_3..TRACK_3 + 512 * 49].fill(0);
    for (bytes, words) in [
        (&good[..8], "1: HFE image of a wrong length"),
        (&good[..1023], "1: HFE image of a wrong length"),
        (&good[..TRACK_3], "3: track table wrong at track 3"),
        (&good[..IMAGE_LEN], "3: track table wrong at track 29"),
    ] {
        bench.write("cut.img", bytes);
        for line in ["check cut.img", "ls cut.img", "rm cut.img one"] {
            bench.fails(line, 1, &format!("cut.img: refused {words}"));
        }
    }
    bench.write("wiped.hfe", &wiped);
    for line in ["put wiped.hfe new data", "rm wiped.hfe one"] {
        let words = "wiped.hfe: refused 4: no header at track 3, side 0, sector 1";
        bench.fails(line, 1, words);
    }
    bench.write("cut.hfe", &bench.read("plain.hfe")[..TRACK_3]);
    let words = "cut.hfe: refused 3: track table wrong at track 3 (HFE version 3)";
    bench.fails("rm cut.hfe one", 1, words);
}

/// A pipe is read, and not changed: it could not be written again.
#[cfg(unix)]
#[test]
fn images_from_pipes() {
    let bench = Bench::with_file();
    for (line, status, out, err) in [
        (
            "cat disk.hfe | dheg check /dev/stdin",
            0,
            "/dev/stdin: sound\n",
            "",
        ),
        (
            "cat disk.hfe | timeout 20 dheg rm /dev/stdin one",
            3,
            "",
            "dheg: /dev/stdin: is no plain file\n",
        ),
        (
            "printf 'first ' > log; dheg get disk.img one /dev/stdout >> log; cat log",
            0,
            "first data",
            "",
        ),
    ] {
        let ended = Ended::from(bench.shell().arg(line).output().unwrap());
        assert_eq!(ended, Ended::new(status, out, err), "{line}");
    }
}
