//! Version 3 images with the answers of an independent program at the project's
//! level.

use super::recipe_answers::run;
use support::cases::Requested;
use support::json::{parse_lines, Contents, Value};
use support::levels::of_request;

const THREE: Requested = Requested {
    lines: include_str!("../../../data/requests/three.jsonl"),
    count: 95,
};

/// Codes right and wrong (§2.7 §2.8 §2.9) on packed disks and built sides, and
/// the order of 18 among the other numbers (§7.25).
#[test]
fn cases_from_0() {
    THREE.run(0, 4, run);
}

/// The same for the next quarter (§7.25).
#[test]
fn cases_from_1() {
    THREE.run(1, 4, run);
}

/// And the third (§7.25).
#[test]
fn cases_from_2() {
    THREE.run(2, 4, run);
}

/// And the last (§7.25).
#[test]
fn cases_from_3() {
    THREE.run(3, 4, run);
}

/// Request Fourteen changes what is said of six of these images.
#[test]
fn answers_that_change_with_a_request() {
    let lines = parse_lines(THREE.lines);
    for (level, count) in [(3, 0), (13, 0), (14, 6)] {
        let changed = |line: &&Value| of_request(line, level).1 != line.member("answer");
        assert_eq!(lines.iter().filter(changed).count(), count, "level {level}");
    }
}
