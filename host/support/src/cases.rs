//! Cases of a test: how many random ones, and those of the outside answers.

use crate::hex::from_hex;
use crate::json::{parse_lines, Contents, Value};
use crate::levels::{later_answer, of_request, LEVEL};
use std::cell::Cell;
use std::collections::BTreeMap;

/// How many cases a random test runs: the usual number, or that of the
/// environment variable `DHEG_CASES`.
pub fn cases(usual: u32) -> u32 {
    match std::env::var("DHEG_CASES") {
        Ok(text) => text.parse().expect("DHEG_CASES is a number"),
        Err(_) => usual,
    }
}

/// Outside answers to what the project began with, level 0: a file of so many
/// cases, a line of JSON each.
pub struct Outside {
    /// The file's name.
    pub file: &'static str,
    /// Its lines.
    pub lines: &'static str,
    /// How many there have to be.
    pub count: usize,
    /// Lines of JSON that say which lines of which file have other answers
    /// once a change request is in. All others hold at every level.
    pub base: &'static str,
}

impl Outside {
    /// Runs one case of `step`, from case `first` on, so that several tests
    /// share the work. Each has the answers that hold at the project's level.
    pub fn run(&self, first: usize, step: usize, run: impl Fn(&Value)) {
        run_share(&self.at_level(LEVEL), first, step, run);
    }

    /// The cases with the answers that hold at a level.
    fn at_level(&self, level: usize) -> Vec<Value> {
        let mut cases = parse_lines(self.lines);
        assert_eq!(cases.len(), self.count);
        for (line, answers) in self.changed(level) {
            let case = &mut cases[line - 1];
            *case = case.replaced(&answers);
        }
        cases
    }

    /// The lines, from 1, whose own answers hold no more at a level, each with
    /// those that do.
    pub fn changed(&self, level: usize) -> BTreeMap<usize, Value> {
        let mut changed = BTreeMap::new();
        for change in parse_lines(self.base) {
            let [file, line, until, later] =
                change.members(["file", "line", "holds_until", "later"]);
            if file.text() == self.file {
                let answers = later_answer(until, later, level);
                changed.extend(answers.map(|answers| (line.size(), answers.clone())));
            }
        }
        changed
    }
}

/// Outside answers to a change request: so many cases, a line of JSON each.
pub struct Requested {
    /// The lines.
    pub lines: &'static str,
    /// How many there have to be.
    pub count: usize,
}

impl Requested {
    /// The cases, each with its answers.
    fn parsed(&self) -> Vec<Value> {
        let lines = parse_lines(self.lines);
        assert_eq!(lines.len(), self.count);
        lines
    }

    /// Runs one case of `step`, from case `first` on, with the answer that
    /// holds at the project's level.
    pub fn run(&self, first: usize, step: usize, run: impl Fn(&Value, &Value)) {
        run_share(&self.parsed(), first, step, |line| {
            let (case, answer) = of_request(line, LEVEL);
            run(case, answer);
        });
    }

    /// Runs all cases of a kind, and of the others none; there have to be
    /// `count` of them.
    pub fn run_kind(&self, kind: &str, count: usize, run: impl Fn(&Value, &Value)) {
        let found = Cell::new(0);
        self.run(0, 1, |case, answer| {
            if case.member("kind").text() == kind {
                found.set(found.get() + 1);
                run(case, answer);
            }
        });
        assert_eq!(found.get(), count, "cases of kind {kind}");
    }
}

/// Runs one case of `step`, from case `first` on.
fn run_share(cases: &[Value], first: usize, step: usize, run: impl Fn(&Value)) {
    for (index, case) in cases.iter().enumerate().skip(first).step_by(step) {
        println!("case {index}");
        run(case);
    }
}

/// Lays the patches of a case over the bytes.
pub fn lay_patches(case: &Value, bytes: &mut [u8]) {
    for patch in case.member("patches").list() {
        let offset = patch.list()[0].size();
        let patch = from_hex(patch.list()[1].text());
        bytes[offset..offset + patch.len()].copy_from_slice(&patch);
    }
}

/// A reply of a case: number and places.
pub fn expected_reply(value: &Value) -> Vec<usize> {
    value.list().iter().map(Value::size).collect()
}

#[cfg(test)]
mod tests {
    use super::*;
    use std::cell::RefCell;

    const CASES: Outside = Outside {
        file: "own.jsonl",
        lines: "{\"reply\": [9, 1, 0, 0], \"patches\": [[1, \"0aff\"], [0, \"07\"]]}\n\
                {\"reply\": [0, 0, 0, 0], \"patches\": []}\n\
                {\"reply\": [1, 2, 0, 0], \"patches\": [[3, \"08\"]]}\n",
        count: 3,
        base: "{\"file\": \"own.jsonl\", \"line\": 2, \"holds_until\": 50, \"later\": \
               [{\"level\": 51, \"holds_until\": null, \"answer\": {\"reply\": [5, 0, 0, 0]}}]}\n\
               {\"file\": \"other.jsonl\", \"line\": 1, \"holds_until\": 50, \"later\": \
               [{\"level\": 51, \"holds_until\": null, \"answer\": {\"reply\": [6, 0, 0, 0]}}]}\n",
    };

    #[test]
    fn shares_of_the_cases() {
        for (first, step, expected) in [
            (0, 1, vec![9, 0, 1]),
            (0, 2, vec![9, 1]),
            (1, 2, vec![0]),
            (3, 4, vec![]),
        ] {
            let numbers = RefCell::new(Vec::new());
            CASES.run(first, step, |case| {
                numbers
                    .borrow_mut()
                    .push(expected_reply(case.member("reply"))[0]);
            });
            assert_eq!(numbers.into_inner(), expected);
        }
    }

    #[test]
    fn patches_are_laid_over() {
        CASES.run(0, 3, |case| {
            let mut bytes = [1, 2, 3, 4];
            lay_patches(case, &mut bytes);
            assert_eq!(bytes, [7, 0x0A, 0xFF, 4]);
        });
    }

    #[test]
    #[should_panic]
    fn another_count_is_a_failure() {
        let more = Outside { count: 4, ..CASES };
        more.run(0, 1, |_| ());
    }

    /// A line of a request that is not in is not run.
    #[test]
    #[should_panic(expected = "is below the request")]
    fn no_line_above_the_level() {
        let requested = Requested {
            lines: "{\"level\": 99, \"holds_until\": null, \"case\": 1, \"answer\": 2, \
                    \"later\": []}\n",
            count: 1,
        };
        requested.run(0, 1, |_, _| panic!("run"));
    }

    /// Two cases of one kind and one of another.
    const KINDS: Requested = Requested {
        lines: "{\"level\": 1, \"holds_until\": null, \"case\": {\"kind\": \"disk\"}, \
                \"answer\": 7, \"later\": []}\n\
                {\"level\": 1, \"holds_until\": null, \"case\": {\"kind\": \"place\"}, \
                \"answer\": 8, \"later\": []}\n\
                {\"level\": 1, \"holds_until\": null, \"case\": {\"kind\": \"disk\"}, \
                \"answer\": 9, \"later\": []}\n",
        count: 3,
    };

    #[test]
    fn cases_of_a_kind() {
        for (kind, expected) in [("disk", vec![7, 9]), ("place", vec![8]), ("pair", vec![])] {
            let answers = RefCell::new(Vec::new());
            KINDS.run_kind(kind, expected.len(), |_, answer| {
                answers.borrow_mut().push(answer.size());
            });
            assert_eq!(answers.into_inner(), expected);
        }
    }

    #[test]
    #[should_panic(expected = "cases of kind disk")]
    fn another_count_of_a_kind_is_a_failure() {
        KINDS.run_kind("disk", 3, |_, _| ());
    }

    /// From a level on a line of this file has other answers, and what it asks
    /// stays; the other lines are as they were.
    #[test]
    fn answers_at_a_level() {
        let own = CASES.at_level(0);
        assert_eq!(CASES.at_level(50), own);
        let changed = CASES.at_level(51);
        assert_eq!([&changed[0], &changed[2]], [&own[0], &own[2]]);
        assert_eq!(expected_reply(changed[1].member("reply")), [5, 0, 0, 0]);
        assert_eq!(changed[1].member("patches"), own[1].member("patches"));
        assert_eq!(CASES.changed(51).into_keys().collect::<Vec<_>>(), [2]);
    }
}
