//! The readme's tour is what the sample script prints.

use support::fenced::fenced;

use crate::bench::{Bench, Ended};

const README: &str = include_str!("../../../../README.md");

const TOUR: &str = concat!(env!("CARGO_MANIFEST_DIR"), "/../sample/tour");

#[test]
fn tour() {
    let bench = Bench::new();
    let mut command = bench.shell();
    command.arg("sh \"$0\"").arg(TOUR);
    let ended = Ended::from(command.output().unwrap());
    assert_eq!(ended, Ended::new(0, fenced(README, "console"), ""));
}
