//! Corrupted block images with the answers of an independent program.

use super::answer::{add, list, read, remove, Parts};
use super::build::fresh;
use super::call::Call;
use super::outside::assert_judged;
use support::cases::{expected_reply, lay_patches, Outside};
use support::hex::from_hex;
use support::json::{Contents, Value};
use support::noise::noise;
use support::sha256::sha256_hex;

const CASES: Outside = Outside {
    file: "corrupted.jsonl",
    lines: include_str!("../../data/corrupted.jsonl"),
    count: 200,
    base: include_str!("../../data/requests/base.jsonl"),
};

/// The image of the case: a format, its calls, then its patches.
fn corrupted_image(case: &Value) -> Vec<u8> {
    let mut image = fresh();
    for call in case.member("calls").list() {
        Call::from_json(call).on_image(&mut image);
    }
    lay_patches(case, &mut image);
    image
}

/// Compares a reply and the lent bytes afterwards with the case's.
fn compare(case: &Value, call: &str, reply: Parts, hash: &str, lent: &[u8]) {
    assert_eq!(reply, *expected_reply(case.member(call)), "{call}");
    assert_eq!(sha256_hex(lent), case.member(hash).text(), "{call}");
}

fn run(case: &Value) {
    let image = corrupted_image(case);
    let name = from_hex(case.member("name").text());
    assert_judged(&image, case.member("check"), case.member("first_track"));

    let (reply, buffer) = list(&image, &[0xAA; 4000]);
    compare(case, "list", reply, "list_buffer", &buffer);

    let (reply, buffer) = read(&image, &name, &[0xAA; 6000]);
    compare(case, "read", reply, "read_buffer", &buffer);

    let mut changed = image.clone();
    let reply = add(&mut changed, b"new", 1, &noise(1, 3000));
    compare(case, "add", reply, "add_image", &changed);

    let mut changed = image.clone();
    let reply = remove(&mut changed, &name);
    compare(case, "remove", reply, "remove_image", &changed);
}

#[test]
fn even_cases() {
    CASES.run(0, 2, run);
}

#[test]
fn odd_cases() {
    CASES.run(1, 2, run);
}

/// Request Five changes what is said of 10 of these disks, Six of 20 others.
#[test]
fn answers_that_change_with_a_request() {
    for (level, count) in [(0, 0), (4, 0), (5, 10), (6, 30), (14, 30)] {
        assert_eq!(CASES.changed(level).len(), count, "level {level}");
    }
}
