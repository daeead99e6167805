//! Comparing with the answers of an independent program.

use super::answer::{check, first_track, first_track_text};
use super::call::Answer;
use reference::geometry::TRACK_LEN;
use support::cases::expected_reply;
use support::json::{Contents, Value};
use support::sha256::sha256_hex;

/// Asserts that an answer has this reply, and a buffer of this hash or none.
pub fn assert_answer((reply, buffer): Answer, expected: &Value, hash: &Value) {
    assert_eq!(reply, *expected_reply(expected));
    match hash {
        Value::Null => assert_eq!(buffer, None),
        hash => assert_eq!(sha256_hex(&buffer.unwrap()), hash.text()),
    }
}

/// Asserts what check says of an image, and what the program prints of its
/// first track.
pub fn assert_judged(image: &[u8], checked: &Value, printed: &Value) {
    assert_eq!(check(image), *expected_reply(checked));
    let track = &image[..TRACK_LEN];
    first_track(track);
    assert_eq!(first_track_text(track), printed.text());
}
