//! Histories with the answers of an independent program.

use super::format_call::FormatCall;
use super::history::History;
use support::cases::Outside;
use support::json::{Contents, Value};

const CASES: Outside = Outside {
    file: "histories.jsonl",
    lines: include_str!("../../data/histories.jsonl"),
    count: 60,
    base: include_str!("../../data/requests/base.jsonl"),
};

fn history(case: &Value) -> History<'_> {
    let [name, number, old, calls, answers @ ..] = case.members([
        "name", "number", "old", "calls", "format", "replies", "buffers", "image",
    ]);
    let format = FormatCall::without_list([name, number, old]);
    History::of(format, calls, answers)
}

fn run_on_image(case: &Value) {
    history(case).on_image();
}

/// A format of an image with any bytes, then calls, accepted or refused (§9.1).
#[test]
fn even_cases() {
    CASES.run(0, 2, run_on_image);
}

/// The same for the other half (§9.1).
#[test]
fn odd_cases() {
    CASES.run(1, 2, run_on_image);
}

/// The model gives the same from the arguments alone (§9.2).
#[test]
fn in_the_model() {
    CASES.run(0, 1, |case| history(case).in_model());
}

/// Request One changes the answers of 22 histories, no later request any.
#[test]
fn answers_that_change_with_a_request() {
    assert_eq!(CASES.changed(0).len(), 0);
    for level in 1..=14 {
        assert_eq!(CASES.changed(level).len(), 22, "level {level}");
    }
}
