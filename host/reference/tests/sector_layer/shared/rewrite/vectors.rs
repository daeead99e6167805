//! Rewrites with the answers of an independent program at the project's level.

use super::recipe_answers::run;
use support::cases::Requested;
use support::json::{parse_lines, Contents, Value};
use support::levels::of_request;

const TWO: Requested = Requested {
    lines: include_str!("../../../data/requests/two.jsonl"),
    count: 133,
};

/// Rewrites on packed disks, built sides and tracks over one another (§8.15
/// §8.16), done or refused with 17 by what all sectors then give (§8.17).
#[test]
fn cases_from_0() {
    TWO.run(0, 4, run);
}

/// The same for the next quarter (§8.15).
#[test]
fn cases_from_1() {
    TWO.run(1, 4, run);
}

/// And the third (§8.15).
#[test]
fn cases_from_2() {
    TWO.run(2, 4, run);
}

/// And the last (§8.15).
#[test]
fn cases_from_3() {
    TWO.run(3, 4, run);
}

/// Request Three changes what is said of two of these images, Fourteen of five
/// others.
#[test]
fn answers_that_change_with_a_request() {
    let lines = parse_lines(TWO.lines);
    for (level, count) in [(2, 0), (3, 2), (13, 2), (14, 7)] {
        let changed = |line: &&Value| of_request(line, level).1 != line.member("answer");
        assert_eq!(lines.iter().filter(changed).count(), count, "level {level}");
    }
}
