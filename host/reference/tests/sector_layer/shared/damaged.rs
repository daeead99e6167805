//! Damaged HFE images with the answers of an independent program.

use super::answer::{pack_into, unpack_into};
use super::build::pattern;
use reference::geometry::IMAGE_LEN;
use reference::pack::HFE_LEN;
use support::cases::{expected_reply, lay_patches, Outside};
use support::json::{Contents, Value};
use support::noise::noise;
use support::sha256::sha256_hex;

const CASES: Outside = Outside {
    file: "damaged.jsonl",
    lines: include_str!("../../data/damaged.jsonl"),
    count: 120,
    base: include_str!("../../data/requests/base.jsonl"),
};

/// The noise image of the case, packed.
fn packed(case: &Value) -> Vec<u8> {
    let seed = case.member("image").number() as u32;
    let (reply, hfe) = pack_into(&noise(seed, IMAGE_LEN), &vec![0x55; HFE_LEN]);
    assert_eq!(reply, [0; 4]);
    assert_eq!(sha256_hex(&hfe), case.member("hfe").text());
    hfe
}

fn run(case: &Value) {
    let mut hfe = packed(case);
    lay_patches(case, &mut hfe);
    hfe.truncate(case.member("length").size());
    let (reply, image) = unpack_into(&hfe, pattern());
    assert_eq!(reply, *expected_reply(case.member("unpack")));
    match case.member("unpacked") {
        Value::Null => assert!(image == pattern()),
        hash => assert_eq!(sha256_hex(&image), hash.text()),
    }
}

#[test]
fn cases_from_0() {
    CASES.run(0, 4, run);
}

#[test]
fn cases_from_1() {
    CASES.run(1, 4, run);
}

#[test]
fn cases_from_2() {
    CASES.run(2, 4, run);
}

#[test]
fn cases_from_3() {
    CASES.run(3, 4, run);
}

/// Request Fourteen changes what is said of four of these images.
#[test]
fn answers_that_change_with_a_request() {
    for (level, count) in [(0, 0), (13, 0), (14, 4)] {
        assert_eq!(CASES.changed(level).len(), count, "level {level}");
    }
}
