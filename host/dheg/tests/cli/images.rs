//! unpack, pack, place, format.

use dhegluubin::{HFE_LEN, IMAGE_LEN};
use support::noise::noise;

use crate::bench::{Bench, Ended};

/// Where track 3 begins in a written HFE image.
const TRACK_3: usize = 512 * (2 + 49 * 3);

#[test]
fn there_and_back() {
    let bench = Bench::new();
    bench.write("a.img", &noise(1, IMAGE_LEN));
    bench.quiet("pack a.img a.hfe");
    assert_eq!(bench.read("a.hfe").len(), HFE_LEN);
    bench.quiet("unpack a.hfe b.img");
    assert!(bench.read("a.img") == bench.read("b.img"));
}

#[test]
fn outputs_are_replaced() {
    let bench = Bench::with_disk();
    bench.write("a.hfe", b"old");
    bench.write("b.img", b"old");
    bench.quiet("pack disk.img a.hfe");
    bench.quiet("unpack a.hfe b.img");
    assert!(bench.read("disk.img") == bench.read("b.img"));
}

#[test]
fn unpack_refused() {
    let bench = Bench::with_disk();
    bench.quiet("pack disk.img good.hfe");
    bench.write("b.img", b"old");
    let good = bench.read("good.hfe");

    for (name, bytes, words) in [
        ("short", &good[..1023], "1: HFE image of a wrong length"),
        ("empty", &[], "1: HFE image of a wrong length"),
        (
            "sign",
            &good[1..],
            "2: HFE header wrong at byte 0 (neither HFE version 1 nor HFE version 3)",
        ),
        ("cut", &good[..TRACK_3], "3: track table wrong at track 3"),
    ] {
        bench.write(name, bytes);
        let line = format!("unpack {name} b.img");
        bench.fails(&line, 1, &format!("{name}: refused {words}"));
    }

    let mut wiped = good.clone();
    wiped[TRACK_3..TRACK_3 + 512 * 49].fill(0);
    bench.write("wiped", &wiped);
    bench.fails(
        "unpack wiped new.img",
        1,
        "wiped: refused 4: no header at track 3, side 0, sector 1",
    );
}

#[test]
fn hfe_image_with_an_endless_tail() {
    // More than any table can point at; what is after it is not read.
    let bench = Bench::with_disk();
    bench.quiet("pack disk.img long.hfe");
    let mut bytes = bench.read("long.hfe");
    bytes.resize(40_000_000, 0);
    bench.write("long.hfe", &bytes);
    bench.quiet("unpack long.hfe b.img");
    assert!(bench.read("disk.img") == bench.read("b.img"));
}

#[test]
fn pack_refused() {
    let bench = Bench::new();
    for (name, length) in [
        ("empty", 0),
        ("short", IMAGE_LEN - 1),
        ("long", IMAGE_LEN + 1),
        ("longer", 2 * IMAGE_LEN),
    ] {
        bench.write(name, &vec![0; length]);
        bench.fails(
            &format!("pack {name} new.hfe"),
            1,
            &format!("{name}: refused 1: block image or first track of a wrong length"),
        );
    }
}

#[test]
fn place() {
    let bench = Bench::new();
    for (line, out) in [
        ("place 0 0", "0\n"),
        ("place 6 2", "20\n"),
        ("place 479 2", "1438\n"),
    ] {
        assert_eq!(bench.line(line), Ended::new(0, out, ""));
    }
    for (block, sector) in [("480", "0"), ("0", "3")] {
        bench.fails(
            &format!("place {block} {sector}"),
            1,
            &format!(
                "block {block}, sector {sector}: refused 12: name, block, sector or data out of range"
            ),
        );
    }
    let great = bench.line("place 99999999999999999999999999 0");
    assert_eq!(great.status, Some(1));
}

#[test]
fn format() {
    let bench = Bench::new();
    bench.quiet("format plain.img");
    let plain = bench.read("plain.img");
    assert_eq!(plain.len(), IMAGE_LEN);
    assert_eq!(plain[..16], *b"QL5A          \0\0");

    bench.quiet("format named.img --number 65535 --name A\\x00\\xFF\\\\");
    assert_eq!(
        bench.read("named.img")[..16],
        *b"QL5AA\0\xFF\\      \xFF\xFF"
    );
    assert_eq!(
        bench.line("check plain.img named.img").out,
        "plain.img: sound\nnamed.img: sound\n2 images: 2 sound, 0 refused, 0 not read\n"
    );
}

#[test]
fn format_refused() {
    let bench = Bench::new();
    bench.fails(
        "format new.img --name elevenbytes",
        1,
        "new.img: refused 12: name, block, sector or data out of range",
    );
}

#[test]
fn format_over_a_file() {
    let bench = Bench::new();
    bench.write("old.img", b"of value");
    bench.fails(
        "format old.img",
        3,
        "old.img: is there already, --force writes over it",
    );
    bench.quiet("format old.img --force");
    assert_eq!(bench.read("old.img").len(), IMAGE_LEN);
}
