//! What unpack and rewrite answer for HFE images that a recipe describes.

use super::answer::{rewrite, unpack_into};
use super::recipe::{pieces, Recipe};
use support::cases::expected_reply;
use support::json::{Contents, Value};
use support::noise::noise;
use support::sha256::sha256_hex;

/// Asserts that the lent bytes have this hash where the call was done, and
/// that they are what they were where it was refused; then no hash is given.
fn assert_lent(reply: [usize; 4], before: &[u8], after: &[u8], hash: &Value) {
    match hash {
        Value::Null => {
            assert_ne!(reply[0], 0, "done, and no hash is given");
            assert!(after == before, "changed by a refusal");
        }
        hash => assert_eq!(sha256_hex(after), hash.text()),
    }
}

/// A reply, and the hash of what was lent.
fn answer_of(expected: &Value) -> (Vec<usize>, &Value) {
    match expected.list() {
        [reply, hash] => (expected_reply(reply), hash),
        _ => panic!("answer {expected:?}"),
    }
}

fn assert_unpacked(hfe: &[u8], image_len: usize, expected: &Value) {
    let (expected, hash) = answer_of(expected);
    let lent = noise(11, image_len);
    let (reply, image) = unpack_into(hfe, &lent);
    assert_eq!(reply, *expected, "unpack");
    assert_lent(reply, &lent, &image, hash);
}

fn assert_rewritten(hfe: &[u8], call: &Value, expected: &Value) {
    let (expected, hash) = answer_of(expected);
    let [track, side, r, data] = call.members(["track", "side", "r", "data"]);
    let [track, side, r] = [track, side, r].map(Value::size);
    let (reply, after) = rewrite(hfe, track, side, r, &pieces(data));
    assert_eq!(reply, *expected, "track {track}, side {side}, R {r}");
    assert_lent(reply, hfe, &after, hash);
}

/// Builds the image of a case and makes its calls. They do not follow one
/// another: each is on the recipe's image.
pub fn run(case: &Value, answer: &Value) {
    let [name, start, turns, splices, patches, length, hash, image_len, rewrites] = case.members([
        "name",
        "start",
        "turns",
        "splices",
        "patches",
        "length",
        "hash",
        "image_len",
        "rewrites",
    ]);
    println!("{}", name.text());
    let recipe = Recipe {
        start,
        turns,
        splices,
        patches,
        length,
    };
    let hfe = recipe.image();
    assert_eq!(sha256_hex(&hfe), hash.text(), "another image");
    let [unpacked, rewritten] = answer.members(["unpack", "rewrites"]);
    assert_unpacked(&hfe, image_len.size(), unpacked);
    let (calls, answers) = (rewrites.list(), rewritten.list());
    assert_eq!(calls.len(), answers.len());
    for (call, expected) in calls.iter().zip(answers) {
        assert_rewritten(&hfe, call, expected);
    }
}
