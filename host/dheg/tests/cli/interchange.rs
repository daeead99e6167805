//! MAME's `floptool` reads what `pack` writes.

use std::io::ErrorKind;
use std::process::Command;

use dhegluubin::IMAGE_LEN;
use support::noise::noise;

use crate::bench::{tell, Bench};

/// How its releases call a conversion, the newer ones first.
const VERBS: [&str; 2] = ["flopconvert", "convert"];

/// From HFE to its raw image of a QL disk. `auto` in place of `hfe` would not
/// do: floptool takes some HFE images for another computer's raw ones.
const FORMATS: [&str; 2] = ["hfe", "ql"];

#[test]
fn floptool_reads_a_packed_image() {
    match Command::new("floptool").output() {
        Err(error) if error.kind() == ErrorKind::NotFound => {
            return tell("interchange: floptool is not installed, NOT RUN");
        }
        other => other.unwrap(),
    };
    let bench = Bench::with_disk();
    bench.write("data", &noise(3, 300_000));
    bench.quiet("put disk.img data data");
    bench.quiet("format fresh.img --name FRESH");
    bench.write("noise.img", &noise(4, IMAGE_LEN));
    for name in ["fresh.img", "disk.img", "noise.img"] {
        bench.quiet(&format!("pack {name} packed.hfe"));
        let raw = converted(&bench);
        assert!(raw == bench.read(name), "floptool gives another {name}");
    }
    bench.quiet("pack disk.img in.hfe");
    bench.quiet("edit in.hfe packed.hfe -- rm data");
    bench.quiet("rm disk.img data");
    assert!(converted(&bench) == bench.read("disk.img"));
    tell("interchange: floptool gives the same raw images");
}

/// The raw image that floptool makes of `packed.hfe`, by the first verb that
/// it knows.
fn converted(bench: &Bench) -> Vec<u8> {
    let (from, to) = (bench.path("packed.hfe"), bench.path("raw.img"));
    let mut answers = String::new();
    for verb in VERBS {
        let mut command = Command::new("floptool");
        command.arg(verb).args(FORMATS).arg(&from).arg(&to);
        let output = command.output().unwrap();
        if output.status.success() && to.is_file() {
            let raw = bench.read("raw.img");
            std::fs::remove_file(&to).unwrap();
            return raw;
        }
        answers.push_str(&format!("{command:?}: {output:?}\n"));
    }
    panic!("floptool converted nothing:\n{answers}");
}
