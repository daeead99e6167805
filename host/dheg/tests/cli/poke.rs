//! One sector rewritten.

use dhegluubin::{HFE_LEN, IMAGE_LEN};
use support::noise::noise;

use crate::bench::Bench;

/// The disk `a.img` of noise as `a.hfe`, and 512 bytes to write, `data`.
fn bench() -> Bench {
    let bench = Bench::new();
    bench.write("a.img", &noise(1, IMAGE_LEN));
    bench.quiet("pack a.img a.hfe");
    bench.write("data", &noise(2, 512));
    bench
}

/// The block image with the data in this image sector.
fn with_data(bench: &Bench, sector: usize) -> Vec<u8> {
    let mut image = bench.read("a.img");
    image[512 * sector..512 * (sector + 1)].copy_from_slice(&bench.read("data"));
    image
}

/// Where byte `index` of sector R of track 0, side 0, has its cells in a
/// written image, counted from the 00 before its header.
fn cell(r: usize, index: usize) -> usize {
    let byte = 2 * (146 + 658 * (r - 1) + index);
    1024 + 512 * (byte / 256) + byte % 256
}

/// The sector gives the data, and all others what they gave (§8.15).
#[test]
fn there_and_back() {
    let bench = bench();
    for (words, sector) in [("0 0 1", 0), ("40 1 5", 733), ("79 1 9", 1439)] {
        bench.quiet(&format!("poke a.hfe b.hfe {words} data"));
        bench.quiet("unpack b.hfe b.img");
        assert!(bench.read("b.img") == with_data(&bench, sector), "{words}");
    }
}

#[test]
fn over_itself() {
    let bench = bench();
    bench.quiet("poke a.hfe a.hfe 3 0 2 data");
    bench.quiet("unpack a.hfe b.img");
    assert!(bench.read("b.img") == with_data(&bench, 55));
}

/// The library judges numbers and lengths, whatever they are (§7.12).
#[test]
fn numbers_and_data_out_of_range() {
    let bench = bench();
    bench.write("short", &[1; 511]);
    bench.write("long", &[1; 513]);
    bench.write("empty", b"");
    let great = "9".repeat(30);
    for words in [
        "80 0 1 data",
        "0 2 1 data",
        "0 0 0 data",
        "0 0 10 data",
        "18446744073709551616 0 1 data",
        &format!("{great} {great} {great} data"),
        "0 0 1 short",
        "0 0 1 long",
        "0 0 1 a.img",
        "0 0 1 empty",
    ] {
        for to in ["a.hfe", "new.hfe"] {
            bench.fails(
                &format!("poke a.hfe {to} {words}"),
                1,
                "a.hfe: refused 12: name, block, sector or data out of range",
            );
        }
    }
}

/// Each refusal of an image, with its places and its words (§8.15).
#[test]
fn refused_images() {
    let bench = bench();
    let good = bench.read("a.hfe");
    let mut two_headers = good.clone();
    for index in 0..10 {
        let (from, to) = (cell(7, 12 + index), cell(8, 100 + index));
        two_headers.copy_within(from..from + 2, to);
    }
    let inverted = |at: usize| {
        let mut hfe = good.clone();
        hfe[at] ^= 0xFF;
        hfe
    };
    let at = |r: usize| format!("at track 0, side 0, sector {r}");
    for (name, hfe, r, words) in [
        (
            "short",
            good[..1023].to_vec(),
            1,
            "1: HFE image of a wrong length".into(),
        ),
        (
            "sign",
            inverted(0),
            1,
            "2: HFE header wrong at byte 0 (neither HFE version 1 nor HFE version 3)".into(),
        ),
        (
            "cut",
            good[..HFE_LEN - 1].to_vec(),
            1,
            "3: track table wrong at track 79".into(),
        ),
        (
            "no_header",
            inverted(cell(3, 20)),
            3,
            format!("4: no header {}", at(3)),
        ),
        (
            "two_headers",
            two_headers.clone(),
            7,
            format!("5: two or more headers {}", at(7)),
        ),
        (
            "no_field",
            inverted(cell(4, 59)),
            4,
            format!("6: no data field {}", at(4)),
        ),
        (
            "misread",
            two_headers,
            8,
            "17: rewritten, the image would be misread".into(),
        ),
    ] {
        bench.write(name, &hfe);
        for to in ["new.hfe", name] {
            let line = format!("poke {name} {to} 0 0 {r} data");
            bench.fails(&line, 1, &format!("{name}: refused {words}"));
        }
    }
}

/// A sector whose CRC is wrong is written; elsewhere the image stays refused.
#[test]
fn images_that_unpack_refuses() {
    let bench = bench();
    bench.damage("a.hfe", cell(3, 60));
    bench.damage("a.hfe", cell(5, 60));
    bench.quiet("poke a.hfe b.hfe 0 0 3 data");
    bench.fails(
        "unpack b.hfe b.img",
        1,
        "b.hfe: refused 7: data CRC wrong at track 0, side 0, sector 5",
    );
    bench.quiet("poke b.hfe b.hfe 0 0 5 data");
    bench.quiet("unpack b.hfe b.img");
}

/// Bytes that no table can point at are kept too.
#[test]
fn image_with_a_long_tail() {
    let bench = bench();
    let mut bytes = bench.read("a.hfe");
    bytes.resize(40_000_000, 0x77);
    bench.write("long.hfe", &bytes);
    bench.quiet("poke long.hfe long.hfe 0 0 1 data");
    let after = bench.read("long.hfe");
    assert!(after[HFE_LEN..] == bytes[HFE_LEN..]);
    bench.quiet("poke a.hfe a.hfe 0 0 1 data");
    assert!(after[..HFE_LEN] == bench.read("a.hfe"));
}

#[cfg(unix)]
#[test]
fn endless_input() {
    let bench = bench();
    bench.fails(
        "poke /dev/zero new.hfe 0 0 1 data",
        3,
        "/dev/zero: does not end",
    );
    bench.fails(
        "poke a.hfe new.hfe 0 0 1 /dev/zero",
        1,
        "a.hfe: refused 12: name, block, sector or data out of range",
    );
}
