//! Progress, and columns with a heading: at a terminal, and only there.

use crate::bench::{tell, Bench, Ended};

/// Back to the start of the line, and wipe it.
const WIPE: &str = "\r\x1b[2K";

/// What a terminal gets of a shell line, where `script` is there to make one.
fn at_a_terminal(bench: &Bench, line: &str) -> Option<String> {
    let mut command = bench.shell();
    command.arg("script -qec \"$0\" /dev/null").arg(line);
    let ended = Ended::from(command.output().unwrap());
    if ended.status == Some(127) {
        tell("progress: script is not installed, NOT RUN at a terminal");
        return None;
    }
    assert_eq!((ended.status, ended.err.as_str()), (Some(0), ""), "{line}");
    Some(ended.out)
}

/// Few enough steps that none is left out to spare the terminal.
#[test]
fn shown_and_wiped() {
    let bench = Bench::with_file();
    bench.write("list", b"rm one\nput three data\nrm three\n");
    for (line, steps) in [
        (
            "dheg unpack disk.hfe out.img",
            &["] 0/1 unpacking disk.hfe, HFE version 1"][..],
        ),
        (
            "dheg unpack disk.hfe --to folder",
            &["] 0/1 unpacking disk.hfe, HFE version 1"],
        ),
        (
            "dheg batch disk.img list",
            &[" removing one", " adding data", " removing three"],
        ),
        (
            "dheg edit disk.hfe disk.hfe -- rm one put two data",
            &[
                " unpacking disk.hfe, HFE version 1",
                " removing one",
                " adding data",
                " packing disk.hfe",
            ],
        ),
        (
            "dheg put disk.hfe three data",
            &[
                " unpacking disk.hfe, HFE version 1",
                " adding data",
                " packing disk.hfe",
            ],
        ),
        (
            "dheg get disk.hfe --all folder",
            &[
                " unpacking disk.hfe, HFE version 1",
                " writing folder/two",
                " writing folder/three",
            ],
        ),
    ] {
        let Some(out) = at_a_terminal(&bench, line) else {
            return;
        };
        let mut rest = out.as_str();
        for step in steps {
            let found = rest.find(step);
            let at = found.unwrap_or_else(|| panic!("{line}: no {step} in {out:?}"));
            rest = &rest[at + step.len()..];
            // Every state but the first stands on a line that was wiped.
            let line_start = out[..out.len() - rest.len()].rfind('\r').unwrap_or(0);
            let first = line_start == 0;
            assert!(first || out[line_start..].starts_with(WIPE), "{out:?}");
        }
        assert!(out.ends_with(WIPE), "{line}: {out:?}");
    }
}

/// The bar counts the images, and each result stands on a line of its own, as does
/// the last line.
#[test]
fn a_bar_for_several_images() {
    let bench = Bench::with_file();
    let Some(out) = at_a_terminal(&bench, "dheg check disk.img disk.hfe disk.img") else {
        return;
    };
    assert!(out.starts_with('['), "{out:?}");
    let mut rest = out.as_str();
    for part in [
        &format!("{WIPE}disk.img: sound\r\n"),
        &format!("{WIPE}disk.hfe: sound\r\n"),
        &format!("{WIPE}disk.img: sound\r\n"),
        // All are done where the last result was told.
        "] 3/3 ",
        &format!("{WIPE}3 images: 3 sound, 0 refused, 0 not read\r\n"),
    ] {
        let found = rest.find(part);
        let at = found.unwrap_or_else(|| panic!("no {part:?} in {out:?}"));
        rest = &rest[at + part.len()..];
    }
    assert_eq!(rest, "");
}

/// What is told of a version 3 image stands on a line of its own.
#[test]
fn edition_is_told_after_the_progress() {
    let bench = Bench::with_file();
    bench.set_version_3("disk.hfe");
    for (line, told) in [
        ("dheg unpack disk.hfe out.img", "HFE version 3"),
        (
            "dheg rm disk.hfe one",
            "HFE version 3, written as HFE version 1",
        ),
    ] {
        let Some(out) = at_a_terminal(&bench, line) else {
            return;
        };
        let told = format!("{WIPE}dheg: disk.hfe: {told}\r\n");
        let Some((progress, rest)) = out.split_once(&told) else {
            panic!("{line}: {out:?}");
        };
        let shown = progress.contains(" unpacking disk.hfe, HFE version 3");
        assert!(shown, "{line}: {out:?}");
        assert!(rest.is_empty() || rest.ends_with(WIPE), "{line}: {out:?}");
        assert!(!rest.contains('\n'), "{line}: {out:?}");
    }
}

#[test]
fn not_where_standard_error_is_a_file() {
    let bench = Bench::with_file();
    let line = "dheg edit disk.hfe out.hfe -- rm one 2>err; dheg check disk.img 2>>err";
    let Some(out) = at_a_terminal(&bench, line) else {
        return;
    };
    assert_eq!(out, "disk.img: sound\r\n");
    assert_eq!(bench.read("err"), b"");
}

#[test]
fn not_with_quiet() {
    let bench = Bench::with_file();
    bench.set_version_3("disk.hfe");
    for line in [
        "dheg unpack --quiet disk.hfe out.img",
        "dheg --quiet unpack disk.hfe out.img --to folder || true",
        "dheg -q check disk.img disk.hfe",
        "dheg -q get disk.hfe --all folder",
        "dheg -q rm disk.hfe one",
    ] {
        let Some(out) = at_a_terminal(&bench, line) else {
            return;
        };
        let refused = "dheg: out.img: refused 2: HFE header wrong at byte 0 \
                       (neither HFE version 1 nor HFE version 3)\r\n";
        assert_eq!(out.replace(refused, ""), "", "{line}");
    }
}

/// A path with control characters does not move the cursor.
#[cfg(unix)]
#[test]
fn control_characters_are_not_drawn() {
    let bench = Bench::with_file();
    std::fs::rename(bench.path("disk.hfe"), bench.path("a\x1b[5Ab\rc.hfe")).unwrap();
    let line = "dheg unpack *c.hfe out.img";
    let Some(out) = at_a_terminal(&bench, line) else {
        return;
    };
    assert!(out.contains("unpacking a[5Abc.hfe"), "{out:?}");
    assert!(!out.contains("\x1b[5A"), "{out:?}");
}

/// At a terminal the columns of ls have a heading; elsewhere, where programs read
/// it, they have none.
#[test]
fn headings_of_columns() {
    let bench = Bench::with_file();
    bench.quiet("format empty.img");
    let line = "dheg --quiet ls disk.img empty.img";
    let Some(out) = at_a_terminal(&bench, line) else {
        return;
    };
    let first = "disk.img: disk \"\", number 0, 1 file, 1431 of 1440 sectors free\n";
    let heading = "   BYTES  DATE                 NAME\n";
    let file = "       4  1961-01-01 00:00:00  one\n";
    let last = "empty.img: disk \"\", number 0, 0 files, 1434 of 1440 sectors free\n";
    let expected = [first, heading, file, last].concat();
    assert_eq!(out.replace("\r\n", "\n"), expected);
    let expected = [first, file, last].concat();
    let ended = bench.line("--quiet ls disk.img empty.img");
    assert_eq!(ended, Ended::new(0, &expected, ""));
}
