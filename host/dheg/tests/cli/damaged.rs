//! HFE images with bad sectors: check, ls and map name them all.

use serde_json::{json, Value};

use crate::bench::{side_byte, Bench, Ended};

/// Items of 16 cells before a sector of a written side, and from its start to its
/// data.
const LEAD: usize = 146;
const SECTOR: usize = 658;
const TO_DATA: usize = 60;

/// Where byte 50 of a sector's data stands.
fn data_byte(track: usize, side: usize, sector: usize) -> usize {
    side_byte(
        track,
        side,
        2 * (LEAD + SECTOR * (sector - 1) + TO_DATA + 50),
    )
}

/// A bench with an HFE image on which three sectors are bad: two by their CRC on
/// one side, and one without a header.
fn bench() -> Bench {
    let bench = Bench::with_file();
    bench.damage("disk.hfe", data_byte(7, 1, 3));
    bench.damage("disk.hfe", data_byte(7, 1, 9));
    let mut hfe = bench.read("disk.hfe");
    let header = side_byte(40, 0, 2 * LEAD + 20);
    hfe[header..header + 60].fill(0);
    bench.write("disk.hfe", &hfe);
    bench
}

const FIRST: &str = "data CRC wrong at track 7, side 1, sector 3";

const LINES: &str = "  track 7, side 1, sector 3: data CRC wrong
  track 7, side 1, sector 9: data CRC wrong
  track 40, side 0, sector 1: no header
";

/// The refusal is the first sector's, and all follow (§7.4 to §7.7); where the
/// image is only unpacked or changed, the first is enough.
#[test]
fn all_are_named() {
    let bench = bench();
    let all = format!("disk.hfe: refused 7: {FIRST}\n{}", LINES.trim_end());
    for line in ["check disk.hfe", "ls disk.hfe", "map disk.hfe"] {
        bench.fails(line, 1, &all);
    }
    bench.set_version_3("disk.hfe");
    let all = format!("disk.hfe: refused 7: {FIRST} (HFE version 3)\n{LINES}");
    let all = format!("dheg: {all}");
    assert_eq!(bench.line("check disk.hfe"), Ended::new(1, "", &all));
    for line in [
        "rm disk.hfe one",
        "get disk.hfe one back",
        "unpack disk.hfe out",
    ] {
        let first = format!("disk.hfe: refused 7: {FIRST} (HFE version 3)");
        bench.fails(line, 1, &first);
    }
}

/// One bad sector alone is named by the refusal.
#[test]
fn one_is_told_once() {
    let bench = Bench::with_file();
    bench.damage("disk.hfe", data_byte(7, 1, 3));
    bench.fails(
        "check disk.hfe",
        1,
        &format!("disk.hfe: refused 7: {FIRST}"),
    );
}

/// Of several images each has its own lines, and sound ones are not touched.
#[test]
fn among_others() {
    let bench = bench();
    bench.quiet("pack disk.img good.hfe");
    let expected = Ended::new(
        1,
        "good.hfe: sound\ndisk.img: sound\n3 images: 2 sound, 1 refused, 0 not read\n",
        &format!("dheg: disk.hfe: refused 7: {FIRST}\n{LINES}"),
    );
    assert_eq!(bench.line("check good.hfe disk.hfe disk.img"), expected);
}

#[test]
fn as_json() {
    let bench = bench();
    let sector = |number, track, side, sector, words| {
        json!({
            "number": number, "track": track, "side": side, "sector": sector,
            "words": words, "rest_judged": true,
        })
    };
    let expected = json!({
        "image": "disk.hfe",
        "refused": {
            "number": 7,
            "places": [7, 1, 3],
            "words": FIRST,
            "bad_sectors": [
                sector(7, 7, 1, 3, "data CRC wrong"),
                sector(7, 7, 1, 9, "data CRC wrong"),
                sector(4, 40, 0, 1, "no header"),
            ],
        },
    });
    for command in ["check", "ls", "map"] {
        let ended = bench.line(&format!("{command} --json disk.hfe"));
        assert_eq!((ended.status, &*ended.err), (Some(1), ""));
        let found: Value = serde_json::from_str(&ended.out).unwrap();
        assert_eq!(found, expected, "{command}");
    }
}

/// An image that is refused for something else has no bad sectors to name.
#[test]
fn other_refusals() {
    let bench = Bench::with_file();
    bench.damage("disk.hfe", 8);
    let all = "disk.hfe: refused 2: HFE header wrong at byte 8";
    bench.fails("check disk.hfe", 1, all);
    let ended = bench.line("check --json disk.hfe");
    let found: Value = serde_json::from_str(&ended.out).unwrap();
    assert_eq!(found["refused"].get("bad_sectors"), None);
}
