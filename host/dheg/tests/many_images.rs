//! How long many images take in one call. This test has a binary of its own:
//! these run one after the other, so that no other test takes part of the
//! processors meanwhile.

#[allow(dead_code)]
#[path = "cli/bench.rs"]
mod bench;

use std::thread::available_parallelism;
use std::time::{Duration, Instant};

use bench::{tell, Bench, Ended};

const IMAGES: usize = 40;

/// Most time of one call for all images, as a part of that of single calls, where
/// there are two processors or more: what no tool reaches that takes one image
/// after the other, and a busy machine does too. `docs/BENCHMARKS.md` has what was
/// measured on an idle one.
const MOST: f64 = 0.8;

/// Measurements at most: one may be disturbed by what else the machine does.
const TRIES: usize = 3;

/// A bench with forty HFE images of different disks.
fn bench() -> Bench {
    let bench = Bench::with_disk();
    let mut disk = bench.read("disk.img");
    for number in 0..IMAGES {
        disk[15] = u8::try_from(number).unwrap();
        bench.write(&format!("{number}.img"), &disk);
    }
    let inputs = (0..IMAGES).map(|number| format!("{number}.img"));
    let ended = bench.dheg(line("pack", inputs, "packed"));
    assert_eq!(ended.status, Some(0), "{ended:?}");
    bench
}

/// A command line with these inputs and a folder for the results.
fn line(command: &str, inputs: impl Iterator<Item = String>, folder: &str) -> Vec<String> {
    let first = [command, "--to", folder, "--"].map(String::from);
    first.into_iter().chain(inputs).collect()
}

fn input(number: usize) -> String {
    format!("packed/{number}.hfe")
}

/// The time of a call for each image.
fn single_calls(bench: &Bench) -> Duration {
    let start = Instant::now();
    for number in 0..IMAGES {
        let result = format!("{number}.img");
        let ended = bench.dheg(["unpack", &input(number), &result]);
        assert_eq!(ended, Ended::quiet());
    }
    start.elapsed()
}

/// The time of one call for all images.
fn one_call(bench: &Bench) -> Duration {
    let args = line("unpack", (0..IMAGES).map(input), "out");
    let start = Instant::now();
    let ended = bench.dheg(args);
    let passed = start.elapsed();
    let counts = "40 images: 40 unpacked, 0 refused, 0 not read or written\n";
    assert_eq!(ended, Ended::new(0, counts, ""));
    passed
}

#[test]
fn forty_images_in_one_call() {
    let bench = bench();
    let processors = available_parallelism().map_or(1, usize::from);
    let mut best = f64::INFINITY;
    for _ in 0..TRIES {
        let (single, one) = (single_calls(&bench), one_call(&bench));
        let part = one.as_secs_f64() / single.as_secs_f64();
        tell(&format!(
            "many_images: {IMAGES} HFE images unpacked by single calls {single:.2?}, \
             by one call {one:.2?}: {part:.2} of it, {processors} processors"
        ));
        best = best.min(part);
        if best <= MOST {
            break;
        }
    }
    for number in 0..IMAGES {
        let [single, one] = ["", "out/"].map(|at| bench.read(&format!("{at}{number}.img")));
        assert!(single == one, "{number}");
        assert_eq!(usize::from(one[15]), number);
    }
    // With one processor there is nothing to gain.
    if processors >= 2 {
        assert!(best <= MOST, "{best}");
    }
}
