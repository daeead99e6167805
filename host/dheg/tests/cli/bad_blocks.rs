//! Disks with bad blocks: format --bad, and what check and ls tell of them.

use dhegluubin::{format_bad, IMAGE_LEN};
use support::noise::noise;

use crate::bench::{Bench, Ended};

/// The list is handed to the library as it stands, blocks in any order and more
/// than once (§8.4).
#[test]
fn lists() {
    let bench = Bench::new();
    for (list, bad) in [
        ("17", &[17][..]),
        ("18,17,18", &[18, 17, 18]),
        ("2,479", &[2, 479]),
        ("0003", &[3]),
    ] {
        bench.quiet(&format!("format disk.img --name OLD --bad {list} --force"));
        let mut expected = vec![0; IMAGE_LEN];
        format_bad(&mut expected, b"OLD", 0, bad).unwrap();
        assert!(bench.read("disk.img") == expected, "{list}");
    }
}

/// Numbers that no bad block has are the library's to refuse (§7.12).
#[test]
fn refused_lists() {
    let bench = Bench::new();
    for list in ["0", "1", "480", "65535", "1,17", "17,480", "17,0,18"] {
        bench.fails(
            &format!("format disk.img --bad {list}"),
            1,
            "disk.img: refused 12: name, block, sector or data out of range",
        );
    }
}

/// check and ls tell how many bad blocks there are, by the good word (§6.18),
/// and say nothing where there are none.
#[test]
fn check_and_ls_count_them() {
    let bench = Bench::new();
    bench.quiet("format a.img --bad 17");
    bench.quiet("format b.img --bad 5,17,6,17 --name OLD --number 7");
    bench.quiet("format c.img");
    bench.write("data", &[1; 3000]);
    bench.quiet("put b.img one data");
    let expected = "\
a.img: sound, 1 bad block
b.img: sound, 3 bad blocks
c.img: sound
3 images: 3 sound, 0 refused, 0 not read
";
    let checked = bench.line("check a.img b.img c.img");
    assert_eq!(checked, Ended::new(0, expected, ""));
    let expected = "\
a.img: disk \"\", number 0, 0 files, 1431 of 1437 sectors free, 1 bad block
b.img: disk \"OLD\", number 7, 1 file, 1419 of 1431 sectors free, 3 bad blocks
    3000  1961-01-01 00:00:00  one
c.img: disk \"\", number 0, 0 files, 1434 of 1440 sectors free
3 images: 3 listed, 0 refused, 0 not read
";
    let listed = bench.line("ls a.img b.img c.img");
    assert_eq!(listed, Ended::new(0, expected, ""));
}

/// No file is given a bad block, through HFE images too (§6.9).
#[test]
fn files_beside_bad_blocks() {
    let bench = Bench::new();
    bench.quiet("format disk.img --bad 2,4,5");
    bench.write("data", &noise(5, 40_000));
    bench.quiet("put disk.img one data");
    bench.quiet("pack disk.img disk.hfe");
    bench.quiet("edit disk.hfe next.hfe -- put two data rm one");
    bench.quiet("unpack next.hfe next.img");
    assert_eq!(
        bench.line("check next.img"),
        Ended::new(0, "next.img: sound, 3 bad blocks\n", "")
    );
    // Blocks 1 to 5 in the map: the directory, bad, free, bad, bad.
    let map = b"\0\0\0\xFE\xFF\xFF\xFD\xFF\xFF\xFE\xFF\xFF\xFE\xFF\xFF";
    assert_eq!(bench.read("next.img")[99..114], *map);
    bench.quiet("get next.img two back");
    assert!(bench.read("back") == bench.read("data"));
}

/// A wrong good word is told of in words (§7.26).
#[test]
fn wrong_good_word() {
    let bench = Bench::new();
    bench.quiet("format disk.img --bad 17");
    bench.damage("disk.img", 23);
    for command in ["check", "ls", "rm"] {
        let (more, what) = match command {
            "rm" => (" a", "disk.img: a"),
            _ => ("", "disk.img"),
        };
        bench.fails(
            &format!("{command} disk.img{more}"),
            1,
            &format!("{what}: refused 19: good-sector word does not fit the map"),
        );
    }
}
