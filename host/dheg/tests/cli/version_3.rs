//! HFE images of version 3: read, changed into version 1, and told.

use dhegluubin::IMAGE_LEN;
use support::codes::{with_codes, SKIP, WEAK};
use support::noise::{noise, Generator};

use crate::bench::{side_byte, Bench, Ended};

/// A bench with a disk of one file, `one`, as `disk.img` and `disk.hfe`, which
/// is also there as version 3: `plain.hfe` without codes, `coded.hfe` with
/// them.
fn bench() -> Bench {
    let bench = Bench::with_file();
    let hfe = bench.read("disk.hfe");
    bench.write("plain.hfe", &hfe);
    bench.set_version_3("plain.hfe");
    bench.write("coded.hfe", &with_codes(&hfe, 60, &mut Generator::new(1)));
    bench
}

/// Done, with this line on standard error.
fn told(line: &str) -> Ended {
    Ended::new(0, "", &format!("dheg: {line}\n"))
}

/// Both are read (§2.2), and the edition is told; of version 1 nothing is.
#[test]
fn unpacked() {
    let bench = bench();
    for name in ["plain.hfe", "coded.hfe"] {
        let ended = bench.line(&format!("unpack {name} out.img"));
        assert_eq!(ended, told(&format!("{name}: HFE version 3")));
        assert!(bench.read("out.img") == bench.read("disk.img"), "{name}");
    }
    bench.quiet("unpack disk.hfe out.img");
}

/// A disk of any bytes (§8.1).
#[test]
fn any_disk() {
    let bench = Bench::new();
    bench.write("a.img", &noise(1, IMAGE_LEN));
    bench.quiet("pack a.img a.hfe");
    let coded = with_codes(&bench.read("a.hfe"), 9, &mut Generator::new(2));
    bench.write("a.hfe", &coded);
    let ended = bench.line("unpack a.hfe b.img");
    assert_eq!(ended, told("a.hfe: HFE version 3"));
    assert!(bench.read("a.img") == bench.read("b.img"));
}

/// The result of an edit is of version 1, which is said: the same bytes as from
/// the same disk of version 1.
#[test]
fn edited() {
    let bench = bench();
    let steps = "rm one put two data --date 5";
    bench.quiet(&format!("edit disk.hfe expected.hfe -- {steps}"));
    for name in ["plain.hfe", "coded.hfe"] {
        for to in ["out.hfe", name] {
            let ended = bench.line(&format!("edit {name} {to} -- {steps}"));
            let line = format!("{name}: HFE version 3, written to {to} as HFE version 1");
            assert_eq!(ended, told(&line));
            assert!(bench.read(to) == bench.read("expected.hfe"), "{name}");
        }
    }
}

/// Standard output has the result alone.
#[cfg(unix)]
#[test]
fn not_told_on_standard_output() {
    let bench = bench();
    let mut command = bench.command();
    command.args(["unpack", "coded.hfe", "/dev/stdout"]);
    let output = command.output().unwrap();
    assert!(output.stdout == bench.read("disk.img"));
    assert_eq!(output.stderr, b"dheg: coded.hfe: HFE version 3\n");
}

/// Nothing is told where nothing was written.
#[test]
fn output_that_cannot_be_written() {
    let bench = bench();
    let missing = "none/out: No such file or directory (os error 2)";
    bench.fails("unpack coded.hfe none/out", 3, missing);
    bench.fails("edit coded.hfe none/out -- rm one", 3, missing);
}

/// A refusal of a version 3 image names the edition; 18 has track, side and
/// place (§7.25).
#[test]
fn refused_images() {
    let bench = bench();
    let good = bench.read("plain.hfe");
    let changed = |at: usize, byte: u8| {
        let mut hfe = good.clone();
        hfe[at] = byte;
        hfe
    };
    // The CRC of the header of R 1, on the second track.
    let mut no_header = good.clone();
    no_header[side_byte(1, 0, 2 * 166)..][..2].fill(0);
    for (name, hfe, words) in [
        (
            "weak",
            changed(side_byte(40, 1, 6724), WEAK),
            "18: wrong code at track 40, side 1, byte 6724",
        ),
        (
            "cut",
            changed(side_byte(79, 0, 12_499), SKIP),
            "18: wrong code at track 79, side 0, byte 12499",
        ),
        (
            "no_header",
            no_header,
            "4: no header at track 1, side 0, sector 1",
        ),
        (
            "table",
            changed(512 + 4 * 7 + 2, 1),
            "3: track table wrong at track 7",
        ),
        ("revision", changed(8, 1), "2: HFE header wrong at byte 8"),
    ] {
        bench.write(name, &hfe);
        let words = format!("{name}: refused {words} (HFE version 3)");
        bench.fails(&format!("unpack {name} out.img"), 1, &words);
        bench.fails(&format!("edit {name} out.hfe -- rm one"), 1, &words);
    }
}

/// Letters of neither version, and images that are too short for any.
#[test]
fn other_editions() {
    let bench = bench();
    let mut other = bench.read("disk.hfe");
    other[..8].copy_from_slice(b"HXCHFEV4");
    bench.write("other", &other);
    let words = "other: refused 2: HFE header wrong at byte 0 \
                 (neither HFE version 1 nor HFE version 3)";
    bench.write("sector", &[7; 512]);
    bench.fails("unpack other out.img", 1, words);
    bench.fails("edit other out.hfe -- rm one", 1, words);
    bench.fails("poke other out.hfe 0 0 1 sector", 1, words);
    bench.write("short", &bench.read("plain.hfe")[..1023]);
    let words = "short: refused 1: HFE image of a wrong length";
    bench.fails("unpack short out.img", 1, words);
}

/// A refused step is of the disk, not of the HFE image.
#[test]
fn refused_steps() {
    let bench = bench();
    bench.fails(
        "edit coded.hfe out.hfe -- rm none",
        1,
        "coded.hfe: none: refused 14: no file of this name",
    );
}

/// Version 3 is not rewritten (§8.15); what comes before that is told as ever.
#[test]
fn poked() {
    let bench = bench();
    bench.write("sector", &[7; 512]);
    for name in ["plain.hfe", "coded.hfe"] {
        for to in ["out.hfe", name] {
            bench.fails(
                &format!("poke {name} {to} 0 0 1 sector"),
                1,
                &format!(
                    "{name}: refused 2: HFE header wrong at byte 0 (HFE version 3 is not rewritten)"
                ),
            );
        }
        bench.fails(
            &format!("poke {name} out.hfe 80 0 1 sector"),
            1,
            &format!("{name}: refused 12: name, block, sector or data out of range"),
        );
    }
}

/// Which versions are read and written is said by the overview and by the
/// commands that take an HFE image.
#[test]
fn help() {
    let bench = Bench::new();
    let overview = bench.line("--help").out;
    assert!(overview.contains("version 1 and of version 3 are read"));
    for (command, words) in [
        ("unpack", "HFE version 1 or 3"),
        ("edit", "OUT.hfe is of version 1"),
        ("pack", "OUT.hfe is of HFE version 1"),
        ("poke", "version 3 is not rewritten"),
    ] {
        let help = bench.line(&format!("{command} --help")).out;
        assert!(help.contains(words), "{command}");
    }
}
