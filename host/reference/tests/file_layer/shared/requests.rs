//! Histories and disks of the change requests, with the answers of an
//! independent program at the project's level.

use super::call::Call;
use super::format_call::FormatCall;
use super::history::History;
use super::outside::{assert_answer, assert_judged};
use reference::geometry::IMAGE_LEN;
use support::cases::{expected_reply, Requested};
use support::hex::from_hex;
use support::json::{Contents, Value};
use support::noise::noise;
use support::sha256::sha256_hex;

const ONE: Requested = Requested {
    lines: include_str!("../../data/requests/one.jsonl"),
    count: 70,
};

const FOUR: Requested = Requested {
    lines: include_str!("../../data/requests/four.jsonl"),
    count: 60,
};

const FIVE: Requested = Requested {
    lines: include_str!("../../data/requests/five.jsonl"),
    count: 70,
};

const SIX: Requested = Requested {
    lines: include_str!("../../data/requests/six.jsonl"),
    count: 80,
};

const SEVEN: Requested = Requested {
    lines: include_str!("../../data/requests/seven.jsonl"),
    count: 75,
};

/// A history, then what check and the program say of its last image.
fn history<'a>(case: &'a Value, answer: &'a Value) -> (History<'a>, [&'a Value; 2]) {
    let [_, format, calls] = case.members(["kind", "format", "calls"]);
    let [formatted, replies, buffers, image, checked, printed] = answer.members([
        "format",
        "replies",
        "buffers",
        "image",
        "check",
        "first_track",
    ]);
    let format = FormatCall::from_json(format);
    let answers = [formatted, replies, buffers, image];
    (History::of(format, calls, answers), [checked, printed])
}

fn run_history(case: &Value, answer: &Value) {
    let (history, [checked, printed]) = history(case, answer);
    assert_judged(&history.on_image(), checked, printed);
}

/// The image of a recipe: zeros, then its patches in order.
fn image_of(recipe: &Value) -> Vec<u8> {
    let mut image = vec![0; IMAGE_LEN];
    for patch in recipe.list() {
        let (at, bytes) = match patch.list() {
            [at, Value::String(hex)] => (at, from_hex(hex)),
            [at, Value::String(hex), times] => (at, from_hex(hex).repeat(times.size())),
            [at, seed, count] => {
                let seed = u32::try_from(seed.number()).unwrap();
                (at, noise(seed, count.size()))
            }
            _ => panic!("patch {patch:?}"),
        };
        let at = at.size();
        image[at..at + bytes.len()].copy_from_slice(&bytes);
    }
    image
}

/// The calls do not follow one another: each is on the recipe's image.
fn run_disk(case: &Value, answer: &Value) {
    let [_, recipe, calls] = case.members(["kind", "recipe", "calls"]);
    let [checked, printed, answers] = answer.members(["check", "first_track", "calls"]);
    let image = image_of(recipe);
    assert_judged(&image, checked, printed);
    assert_eq!(calls.list().len(), answers.list().len());
    for (index, (call, expected)) in calls.list().iter().zip(answers.list()).enumerate() {
        println!("call {index}");
        let [reply, buffer, after] = expected.list() else {
            panic!("answer {expected:?}");
        };
        let mut image = image.clone();
        let answer = Call::from_json(call).on_image(&mut image);
        assert_answer(answer, reply, buffer);
        assert_eq!(sha256_hex(&image), after.text());
    }
}

/// Each format is of its own image.
fn run_formats(case: &Value, answer: &Value) {
    let [_, calls] = case.members(["kind", "calls"]);
    let [answers] = answer.members(["calls"]);
    assert_eq!(calls.list().len(), answers.list().len());
    for (index, (call, expected)) in calls.list().iter().zip(answers.list()).enumerate() {
        println!("format {index}");
        let [reply, after] = expected.list() else {
            panic!("answer {expected:?}");
        };
        let (given, image) = FormatCall::from_json(call).on_image();
        assert_eq!(given, *expected_reply(reply));
        assert_eq!(sha256_hex(&image), after.text());
    }
}

fn run(case: &Value, answer: &Value) {
    match case.member("kind").text() {
        "history" => run_history(case, answer),
        "disk" => run_disk(case, answer),
        kind => panic!("kind {kind}"),
    }
}

/// The model is asked for histories, which begin with a format.
fn run_in_model(case: &Value, answer: &Value) {
    match case.member("kind").text() {
        "history" => history(case, answer).0.in_model(),
        "disk" => (),
        kind => panic!("kind {kind}"),
    }
}

/// Names in both spellings: on disks of other makers (§7.21), and in histories
/// (§9.1), where 13 and 14 go by equal names (§6.14).
#[test]
fn even_cases_of_one() {
    ONE.run(0, 2, run);
}

/// The same for the other half (§6.14).
#[test]
fn odd_cases_of_one() {
    ONE.run(1, 2, run);
}

/// The model gives the same from the arguments alone (§9.2 §9.4).
#[test]
fn one_in_the_model() {
    ONE.run(0, 1, run_in_model);
}

/// The header's tables as format writes them (§6.7), in histories of empty and
/// of full disks (§9.1).
#[test]
fn histories_of_four() {
    FOUR.run_kind("history", 17, run_history);
}

/// The tables as the check reads them (§6.7), on disks of other makers, two of
/// which have another first table (§7.8).
#[test]
fn disks_of_four() {
    FOUR.run_kind("disk", 37, run_disk);
}

/// The model writes them too (§9.5).
#[test]
fn four_in_the_model() {
    FOUR.run_kind("history", 17, run_in_model);
}

/// Free records with other tails (§6.9), on disks of other makers: what each
/// call gives of them and leaves of them (§8.12 §8.13).
#[test]
fn disks_of_five() {
    FIVE.run_kind("disk", 56, run_disk);
}

/// Histories, after which every free record is FD FF FF (§9.5).
#[test]
fn histories_of_five() {
    FIVE.run_kind("history", 14, run_history);
}

/// The model writes FD FF FF too (§9.5).
#[test]
fn five_in_the_model() {
    FIVE.run_kind("history", 14, run_in_model);
}

/// Disks of other makers with bad blocks and with wrong good words: 9 (§6.9),
/// 19 (§7.26) and what each call leaves (§8.12 §8.13).
#[test]
fn disks_of_six() {
    SIX.run_kind("disk", 42, run_disk);
}

/// Histories after formats with lists of bad blocks (§9.1 §9.7).
#[test]
fn histories_of_six() {
    SIX.run_kind("history", 31, run_history);
}

/// The model has the bad blocks from the format's arguments (§9.2 §9.5).
#[test]
fn six_in_the_model() {
    SIX.run_kind("history", 31, run_in_model);
}

/// Lists of bad blocks, good ones and those that are refused (§8.4 §7.12).
#[test]
fn formats_of_six() {
    SIX.run_kind("formats", 7, run_formats);
}

/// Batches on disks of other makers, sound ones and others: 1 (§7.1), 20 (§7.27)
/// and what items before a refusal leave (§8.19).
#[test]
fn disks_of_seven() {
    SEVEN.run_kind("disk", 34, run_disk);
}

/// Batches among the other calls of a history (§9.9).
#[test]
fn histories_of_seven() {
    SEVEN.run_kind("history", 41, run_history);
}

/// The model counts accepted items as calls (§9.9).
#[test]
fn seven_in_the_model() {
    SEVEN.run_kind("history", 41, run_in_model);
}
