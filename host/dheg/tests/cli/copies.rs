//! Files copied from one image to another: dheg cp.

use support::noise::noise;

use dhegluubin::place;

use crate::bench::{Bench, Ended};

/// A bench with a disk that has three files, an empty one, and both as HFE images.
fn bench() -> Bench {
    let bench = Bench::new();
    bench.quiet("format from.img");
    bench.quiet("format to.img --name OTHER --bad 3,4");
    bench.write("data", &noise(1, 5000));
    bench.write("nothing", b"");
    bench.quiet("put from.img Reel_One data --date 730944000");
    bench.quiet("put from.img other nothing --date 5");
    bench.quiet("put from.img \\x00/* nothing --date 4294967295");
    for name in ["from", "to"] {
        bench.quiet(&format!("pack {name}.img {name}.hfe"));
    }
    bench
}

/// The files of an image: lengths, dates and names.
fn files(bench: &Bench, image: &str) -> Vec<String> {
    let listed = bench.line(&format!("ls {image}"));
    assert_eq!((listed.status, &*listed.err), (Some(0), ""));
    listed.out.lines().skip(1).map(String::from).collect()
}

/// Date and spelling are those of the first disk, however the file was named, and
/// the image that has the file stays as it is.
#[test]
fn between_all_images() {
    for from in ["from.img", "from.hfe"] {
        for to in ["to.img", "to.hfe"] {
            let bench = bench();
            let before = bench.read(from);
            bench.quiet(&format!("cp {from} REEL_one {to}"));
            bench.quiet(&format!("cp {from} \\x00/\\x2a {to}"));
            let expected = [
                "    5000  1984-03-01 00:00:00  Reel_One",
                "       0  2097-02-06 06:28:15  \\x00/\\x2A",
            ];
            assert_eq!(files(&bench, to), expected, "{from} {to}");
            bench.quiet(&format!("get {to} reel_one back"));
            assert!(bench.read("back") == bench.read("data"), "{from} {to}");
            assert!(bench.read(from) == before, "{from} {to}");
        }
    }
}

/// A copy is what a put of the same data, date and name is.
#[test]
fn the_same_as_put() {
    let bench = bench();
    let to = bench.read("to.img");
    bench.quiet("cp from.img reel_one to.img New_Name");
    let copied = bench.read("to.img");
    bench.write("to.img", &to);
    bench.quiet("put to.img New_Name data --date 730944000");
    assert!(bench.read("to.img") == copied);
}

#[test]
fn in_one_image() {
    for image in ["from.img", "from.hfe"] {
        let bench = bench();
        bench.quiet(&format!("cp {image} reel_one {image} COPY"));
        let expected = [
            "    5000  1984-03-01 00:00:00  Reel_One",
            "       0  1961-01-01 00:00:05  other",
            "       0  2097-02-06 06:28:15  \\x00/\\x2A",
            "    5000  1984-03-01 00:00:00  COPY",
        ];
        assert_eq!(files(&bench, image), expected);
        bench.quiet(&format!("get {image} copy back"));
        assert!(bench.read("back") == bench.read("data"));
    }
}

#[test]
fn refused() {
    let bench = bench();
    bench.quiet("put to.img OTHER data");
    bench.write("great", &noise(2, 732_000));
    bench.quiet("format full.img");
    bench.quiet("put full.img great great");
    let present = "refused 13: name already present in slot";
    let missing = "refused 14: no file of this name";
    for (line, words) in [
        (
            "from.img other to.img",
            format!("to.img: other: {present} 1"),
        ),
        (
            "from.hfe reel_one to.img Other",
            format!("to.img: Other: {present} 1"),
        ),
        (
            "from.img other from.img",
            format!("from.img: other: {present} 2"),
        ),
        ("from.img none to.img", format!("from.img: none: {missing}")),
        (
            "from.hfe none from.hfe new",
            format!("from.hfe: none: {missing}"),
        ),
        // A copy has one name: a star is no pattern here.
        ("from.img * to.img", format!("from.img: \\x2A: {missing}")),
        // The second disk has bad blocks, so that not all of a full one fits.
        (
            "full.img great to.hfe big",
            String::from("to.hfe: big: refused 15: too few free blocks"),
        ),
    ] {
        bench.fails(&format!("cp {line}"), 1, &words);
    }
}

#[test]
fn images_that_are_damaged_or_missing() {
    let bench = bench();
    bench.write("bad.img", &bench.read("from.img"));
    bench.damage("bad.img", 0);
    let wrong = "refused 8: disk header wrong at byte 0";
    bench.fails(
        "cp bad.img other to.img",
        1,
        &format!("bad.img: other: {wrong}"),
    );
    bench.fails(
        "cp from.img other bad.img",
        1,
        &format!("bad.img: other: {wrong}"),
    );
    let missing = "none: No such file or directory (os error 2)";
    bench.fails("cp none other to.img", 3, missing);
    bench.fails("cp from.img other none", 3, missing);
}

/// Of version 3 only an image that is written is told of.
#[test]
fn version_3() {
    let bench = bench();
    bench.set_version_3("from.hfe");
    bench.set_version_3("to.hfe");
    bench.quiet("cp from.hfe other to.img");
    let told = "dheg: to.hfe: HFE version 3, written as HFE version 1\n";
    assert_eq!(
        bench.line("cp from.hfe other to.hfe"),
        Ended::new(0, "", told)
    );
    assert_eq!(files(&bench, "to.hfe"), files(&bench, "to.img"));
}

/// What an add does not write, as the type of a program, is told, by cp and by a
/// put of what get took; the listing keeps it.
#[test]
fn types_are_not_kept() {
    let bench = Bench::with_file();
    let mut disk = bench.read("disk.img");
    // The entry of slot 1: the second sector of block 1 has slots from 8 on.
    let entry = 512 * place(1, 0).unwrap() + 64;
    assert_eq!(disk[entry + 16..][..3], *b"one");
    disk[entry + 5] = 1;
    bench.write("disk.img", &disk);
    let note = |image: &str| {
        format!(
            "dheg: {image}: one: only length, name and date of its entry are kept, not its type\n"
        )
    };
    bench.quiet("format copy.img");
    let ended = bench.line("cp disk.img one copy.img");
    assert_eq!(ended, Ended::new(0, "", &note("copy.img")));
    bench.quiet("get disk.img --all folder");
    bench.quiet("format other.img");
    let ended = bench.line("put other.img folder");
    assert_eq!(ended, Ended::new(0, "", &note("other.img")));
    assert!(bench.read("other.img") == bench.read("copy.img"));
    bench.quiet("rm other.img one");
    bench.quiet("put other.img folder --quiet");
    bench.quiet("get other.img --all plain");
    bench.quiet("put --quiet disk.img data");
    bench.quiet("cp disk.img data copy.img");
}
