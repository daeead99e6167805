//! put, get, rm, ls.

use std::ffi::OsStr;

use dhegluubin::IMAGE_LEN;
use support::noise::noise;

use crate::bench::{Bench, Ended};

#[test]
fn put_get_rm() {
    let bench = Bench::with_disk();
    let fresh = bench.read("disk.img");
    for (name, length) in [("empty", 0), ("one", 1472), ("two", 1473), ("big", 700_000)] {
        bench.write(name, &noise(9, length));
        bench.quiet(&format!("put disk.img {name} {name}"));
        bench.quiet(&format!("get disk.img {name} back"));
        assert!(bench.read("back") == bench.read(name), "{name}");
        bench.quiet(&format!("rm disk.img {name}"));
        bench.fails(
            &format!("get disk.img {name} back"),
            1,
            &format!("disk.img: {name}: refused 14: no file of this name"),
        );
    }
    // Four accepted adds and removes are counted; the directory keeps its
    // second slot.
    let mut expected = fresh;
    expected[19] = 8;
    expected[37] = 128;
    assert!(bench.read("disk.img") == expected);
}

#[test]
fn list() {
    let bench = Bench::new();
    bench.quiet("format disk.img --name WORK --number 7");
    bench.write("data", &[1; 1500]);
    bench.write("nothing", b"");
    bench.quiet("put disk.img first data --date 730944000");
    bench.quiet("put disk.img second nothing");
    let dated = ["put", "disk.img", "the third", "data", "--date"];
    let date = "2097-02-06 06:28:15";
    assert_eq!(bench.dheg(dated.into_iter().chain([date])), Ended::quiet());
    let expected = "\
disk.img: disk \"WORK\", number 7, 3 files, 1419 of 1440 sectors free
    1500  1984-03-01 00:00:00  first
       0  1961-01-01 00:00:00  second
    1500  2097-02-06 06:28:15  the third
";
    assert_eq!(bench.line("ls disk.img"), Ended::new(0, expected, ""));
}

#[test]
fn any_bytes_in_names() {
    let bench = Bench::with_disk();
    bench.write("data", b"data");
    let all: Vec<u8> = (0..=255).collect();
    let names: Vec<String> = all
        .chunks(36)
        .map(|bytes| bytes.iter().map(|byte| format!("\\x{byte:02x}")).collect())
        .collect();
    for name in &names {
        bench.quiet(&format!("put disk.img {name} data"));
    }
    let listed = bench.line("ls disk.img").out;
    let shown: Vec<&str> = listed.lines().skip(1).map(|line| &line[31..]).collect();
    assert_eq!(shown.len(), names.len());
    assert!(shown[0].starts_with("\\x00\\x01\\x02"));
    assert!(shown[0].ends_with("\\x1F !\"#"));
    assert!(shown[2].contains("YZ[\\\\]^_"));
    // What is listed can be given as it is.
    for name in shown {
        for args in [
            vec!["get", "disk.img", name, "back"],
            vec!["rm", "disk.img", name],
        ] {
            assert_eq!(bench.dheg(args), Ended::quiet());
        }
    }
}

/// A file is found by any spelling of its name (§6.14), a put of another one is
/// refused with its slot (§7.13), and a list shows the one that it was put with.
#[test]
fn names_in_another_spelling() {
    let bench = Bench::with_disk();
    bench.write("data", b"data");
    bench.write("other", b"other");
    bench.quiet("put disk.img Reel_one data");
    for name in ["REEL_ONE", "reel_one", "Reel_one"] {
        bench.fails(
            &format!("put disk.img {name} other"),
            1,
            &format!("disk.img: {name}: refused 13: name already present in slot 1"),
        );
        bench.quiet(&format!("get disk.img {name} back"));
        assert_eq!(bench.read("back"), b"data");
    }
    let listed = || bench.line("ls disk.img").out;
    assert!(listed().ends_with("  Reel_one\n"), "{}", listed());
    bench.quiet("rm disk.img rEEL_oNE");
    bench.fails(
        "rm disk.img Reel_one",
        1,
        "disk.img: Reel_one: refused 14: no file of this name",
    );
    bench.quiet("put disk.img REEL_ONE other");
    assert!(listed().ends_with("  REEL_ONE\n"), "{}", listed());
}

#[test]
fn names_that_look_like_options() {
    let bench = Bench::with_disk();
    bench.write("data", b"data");
    bench.quiet("put --date 5 -- disk.img --help data");
    bench.quiet("get disk.img \\x2D-help back");
    bench.quiet("rm -- disk.img --help");
    bench.write("--all", b"more");
    bench.quiet("put -- disk.img --all");
    bench.quiet("get -- disk.img --all --to");
    assert_eq!(bench.read("--to"), b"more");
    bench.quiet("rm disk.img -- --ALL");
    bench.fails(
        "rm disk.img -- -q",
        1,
        "disk.img: \\x2Dq: refused 14: no file of this name",
    );
}

#[cfg(unix)]
#[test]
fn arguments_that_are_not_text() {
    use std::os::unix::ffi::OsStrExt;

    let bench = Bench::with_disk();
    let odd = OsStr::from_bytes(b"odd\xFF");
    std::fs::rename(bench.path("disk.img"), bench.path("").join(odd)).unwrap();
    bench.write("data", b"data");
    // The image has this name too, so that it could be meant as a file.
    let args = ["put".as_ref(), odd, odd, "data".as_ref()];
    assert_eq!(bench.dheg(args).status, Some(2));
    let args = ["put".as_ref(), odd, "data".as_ref(), "--name".as_ref(), odd];
    assert_eq!(bench.dheg(args), Ended::quiet());
    let more = OsStr::from_bytes(b"more\xFE");
    let args = ["put".as_ref(), odd, more, "data".as_ref()];
    assert_eq!(bench.dheg(args), Ended::quiet());
    let listed = bench.dheg(["ls".as_ref(), odd]);
    assert!(listed.out.contains("  odd\\xFF\n"), "{listed:?}");
    assert!(listed.out.ends_with("  more\\xFE\n"), "{listed:?}");
    let wrong = bench.dheg([odd, odd]);
    assert_eq!(wrong.status, Some(2));
    let wrong = bench.dheg(["place".as_ref(), odd, odd]);
    assert_eq!(wrong.status, Some(2));
    assert!(wrong.err.starts_with("dheg: "), "{wrong:?}");
    let wrong = bench.dheg(["put".as_ref(), odd, "data".as_ref(), "--date".as_ref(), odd]);
    assert_eq!(wrong.status, Some(2));
}

#[test]
fn put_refused() {
    let bench = Bench::with_disk();
    bench.write("data", b"data");
    bench.write("great", &vec![0; 2 * IMAGE_LEN]);
    bench.quiet("put disk.img one data");
    bench.fails(
        "put disk.img one data",
        1,
        "disk.img: one: refused 13: name already present in slot 1",
    );
    for file in ["great", "disk.img"] {
        bench.fails(
            &format!("put disk.img two {file}"),
            1,
            "disk.img: two: refused 15: too few free blocks",
        );
    }
    let long = "n".repeat(37);
    bench.fails(
        &format!("put disk.img {long} data"),
        1,
        &format!("disk.img: {long}: refused 12: name, block, sector or data out of range"),
    );
    assert_eq!(
        bench.dheg(["put", "disk.img", "", "data"]),
        Ended::failed(
            1,
            "disk.img: : refused 12: name, block, sector or data out of range"
        )
    );
}

#[test]
fn damaged_disks_refused() {
    let bench = Bench::with_disk();
    bench.write("data", b"data");
    bench.quiet("put disk.img one data");
    let good = bench.read("disk.img");
    for (at, words) in [
        (0, "8: disk header wrong at byte 0"),
        (96, "9: map record wrong at block 0"),
        (20, "11: free-sector word does not fit the map"),
    ] {
        bench.write("disk.img", &good);
        bench.damage("disk.img", at);
        for line in [
            "put disk.img two data",
            "get disk.img one back",
            "rm disk.img one",
        ] {
            let name = line.split(' ').nth(2).unwrap();
            bench.fails(line, 1, &format!("disk.img: {name}: refused {words}"));
        }
        for line in ["ls disk.img", "check disk.img"] {
            bench.fails(line, 1, &format!("disk.img: refused {words}"));
        }
    }
}

#[test]
fn rm_refused() {
    let bench = Bench::with_disk();
    bench.fails(
        "rm disk.img none",
        1,
        "disk.img: none: refused 14: no file of this name",
    );
}
