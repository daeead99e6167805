//! Levels of the outside answers: at level n the first n change requests are
//! in.

use crate::json::{Contents, Value};

/// The project's level: the requests One to this one are in. The tests take
/// the answers that hold at it.
pub const LEVEL: usize = 7;

/// Whether an answer still holds at a level: `until` is the last level that it
/// holds at, or null where it never changes.
fn holds(until: &Value, level: usize) -> bool {
    match until {
        Value::Null => true,
        last => level <= last.size(),
    }
}

/// Of the answers that follow an answer, which holds until a level, the one
/// that holds at `level`; none where the answer itself still does. Each of
/// them holds from the level after the last one's end.
pub fn later_answer<'a>(until: &'a Value, later: &'a Value, level: usize) -> Option<&'a Value> {
    if holds(until, level) {
        return None;
    }
    let mut last = until;
    for next in later.list() {
        let [from, until, answer] = next.members(["level", "holds_until", "answer"]);
        assert_eq!(from.size(), last.size() + 1, "levels without an answer");
        if holds(until, level) {
            return Some(answer);
        }
        last = until;
    }
    panic!("no answer at level {level}");
}

/// The case of a request's line, and the answer to it that holds at a level;
/// panics where that is below the request's own.
pub fn of_request(line: &Value, level: usize) -> (&Value, &Value) {
    let [own, until, case, answer, later] =
        line.members(["level", "holds_until", "case", "answer", "later"]);
    assert!(own.size() <= level, "level {level} is below the request");
    (case, later_answer(until, later, level).unwrap_or(answer))
}

#[cfg(test)]
mod tests {
    use super::*;
    use crate::json::parse;
    use serde_json::json;

    /// A line of request Three, whose answer changes with Six.
    const LINE: &str = r#"{"level": 3, "holds_until": 5, "case": "asked", "answer": "own",
        "later": [{"level": 6, "holds_until": null, "answer": "later"}]}"#;

    /// An answer until 4, one for 5 to 11, and one from 12 on.
    const LATER: &str = r#"[
        {"level": 5, "holds_until": 11, "answer": "second"},
        {"level": 12, "holds_until": null, "answer": "third"}
    ]"#;

    /// Each level has one answer, from the level after the last one's end.
    #[test]
    fn one_answer_at_each_level() {
        let (until, later) = (json!(4), parse(LATER));
        let at = |level| later_answer(&until, &later, level).map(Value::text);
        assert_eq!((at(0), at(4)), (None, None));
        assert_eq!((at(5), at(11)), (Some("second"), Some("second")));
        assert_eq!((at(12), at(99)), (Some("third"), Some("third")));
        assert_eq!(later_answer(&Value::Null, &json!([]), 99), None);
    }

    /// A line's own answer holds until another does.
    #[test]
    fn answers_to_a_request() {
        let line = parse(LINE);
        for (level, expected) in [(3, "own"), (5, "own"), (6, "later"), (14, "later")] {
            let (case, answer) = of_request(&line, level);
            assert_eq!((case.text(), answer.text()), ("asked", expected));
        }
    }

    /// A request that is not in has no answer.
    #[test]
    #[should_panic(expected = "level 2 is below the request")]
    fn no_answer_before_the_request() {
        of_request(&parse(LINE), 2);
    }

    /// Levels between two answers are a failure.
    #[test]
    #[should_panic(expected = "levels without an answer")]
    fn no_level_is_left_out() {
        later_answer(&json!(3), &parse(LATER), 5);
    }

    /// So are levels after the last answer.
    #[test]
    #[should_panic(expected = "no answer at level 6")]
    fn last_answer_holds_for_ever() {
        later_answer(&json!(5), &parse("[]"), 6);
    }
}
