//! The whole job: unpack, change, pack.

use support::noise::noise;

use crate::bench::{Bench, Ended};

/// An HFE image with the file `old`, and two files to put.
fn bench() -> Bench {
    let bench = Bench::with_disk();
    bench.write("one", &noise(1, 5000));
    bench.write("two", &noise(2, 100));
    bench.quiet("put disk.img old two");
    bench.quiet("pack disk.img in.hfe");
    bench
}

#[test]
fn the_same_as_step_by_step() {
    let bench = bench();
    let args = [
        "edit",
        "in.hfe",
        "out.hfe",
        "--",
        "put",
        "first one",
        "one",
        "--date",
        "1984-01-12 10:00:00",
        "rm",
        "old",
        "put",
        "old",
        "one",
        "put",
        "\\x00",
        "two",
        "--date",
        "4294967295",
    ];
    assert_eq!(bench.dheg(args), Ended::quiet());

    let put = ["put", "disk.img", "first one", "one", "--date"];
    let date = ["1984-01-12 10:00:00"];
    assert_eq!(bench.dheg(put.into_iter().chain(date)), Ended::quiet());
    bench.quiet("rm disk.img old");
    bench.quiet("put disk.img old one");
    bench.quiet("put disk.img \\x00 two --date 4294967295");
    bench.quiet("pack disk.img steps.hfe");
    assert!(bench.read("out.hfe") == bench.read("steps.hfe"));
}

#[test]
fn over_itself() {
    let bench = bench();
    bench.quiet("edit in.hfe in.hfe -- rm old put new one");
    bench.quiet("unpack in.hfe out.img");
    bench.quiet("get out.img new back");
    assert!(bench.read("back") == bench.read("one"));
}

/// A step finds a file by any spelling of its name (§6.14), and a later one may
/// put it anew in its own.
#[test]
fn steps_in_another_spelling() {
    let bench = bench();
    bench.quiet("edit in.hfe out.hfe -- rm OLD put Old one");
    bench.quiet("unpack out.hfe out.img");
    let listed = bench.line("ls out.img").out;
    assert!(listed.ends_with("  Old\n"), "{listed}");
    bench.quiet("get out.img oLD back");
    assert!(bench.read("back") == bench.read("one"));
}

#[test]
fn refused_steps_write_nothing() {
    let bench = bench();
    for (steps, words) in [
        ("rm none", "none: refused 14: no file of this name"),
        (
            "put new one put old one",
            "old: refused 13: name already present in slot 1",
        ),
        (
            "put OLD one",
            "OLD: refused 13: name already present in slot 1",
        ),
        (
            "rm old rm old put new one",
            "old: refused 14: no file of this name",
        ),
        ("put big in.hfe", "big: refused 15: too few free blocks"),
    ] {
        for to in ["out.hfe", "in.hfe"] {
            bench.fails(
                &format!("edit in.hfe {to} -- {steps}"),
                1,
                &format!("in.hfe: {words}"),
            );
        }
    }
}

/// A step is refused before the file of a later one is missed, and as the single
/// call would be where its name has no room in a list (§8.18): by the disk first,
/// then with 12 (§8.5).
#[test]
fn refusals_before_what_follows() {
    let bench = bench();
    bench.fails(
        "edit in.hfe out.hfe -- rm none put new missing",
        1,
        "in.hfe: none: refused 14: no file of this name",
    );
    let long = "n".repeat(300);
    let out_of_range = "refused 12: name, block, sector or data out of range";
    for step in [format!("rm {long}"), format!("put {long} one")] {
        bench.fails(
            &format!("edit in.hfe out.hfe -- rm old {step} rm old"),
            1,
            &format!("in.hfe: {long}: {out_of_range}"),
        );
    }
    bench.damage("disk.img", 20);
    bench.quiet("pack disk.img bad.hfe");
    bench.fails(
        &format!("edit bad.hfe out.hfe -- rm {long}"),
        1,
        &format!("bad.hfe: {long}: refused 11: free-sector word does not fit the map"),
    );
}

#[test]
fn refused_images() {
    let bench = bench();
    bench.damage("in.hfe", 8);
    bench.fails(
        "edit in.hfe out.hfe -- rm old",
        1,
        "in.hfe: refused 2: HFE header wrong at byte 8",
    );
    bench.damage("disk.img", 0);
    bench.quiet("pack disk.img bad.hfe");
    bench.fails(
        "edit bad.hfe out.hfe -- rm old",
        1,
        "bad.hfe: old: refused 8: disk header wrong at byte 0",
    );
}

#[test]
fn missing_files() {
    let bench = bench();
    let missing = "No such file or directory (os error 2)";
    for (line, what) in [
        ("edit none out.hfe -- rm old", "none"),
        ("edit in.hfe out.hfe -- rm old put new none", "none"),
        ("edit in.hfe none/out.hfe -- rm old", "none/out.hfe"),
    ] {
        bench.fails(line, 3, &format!("{what}: {missing}"));
    }
}
