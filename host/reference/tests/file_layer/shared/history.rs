//! A history with the answers of an independent program, on an image and in
//! the model.

use super::call::{Answer, Call};
use super::format_call::FormatCall;
use super::outside::assert_answer;
use support::cases::expected_reply;
use support::json::{Contents, Value};
use support::sha256::sha256_hex;

/// A format of noise and the calls after it, then the answers to them as they
/// stand in a case.
pub struct History<'a> {
    pub format: FormatCall,
    pub calls: &'a Value,
    /// The reply to the format.
    pub formatted: &'a Value,
    pub replies: &'a Value,
    pub buffers: &'a Value,
    /// The hash of the image afterwards.
    pub image: &'a Value,
}

impl<'a> History<'a> {
    /// The history of this format and these calls; the answers are those to the
    /// format and the calls, and the image's hash.
    pub fn of(format: FormatCall, calls: &'a Value, answers: [&'a Value; 4]) -> History<'a> {
        let [formatted, replies, buffers, image] = answers;
        History {
            format,
            calls,
            formatted,
            replies,
            buffers,
            image,
        }
    }

    /// Makes the calls and compares the answer to each.
    fn compare(&self, mut answer: impl FnMut(&Call) -> Answer) {
        let calls = self.calls.list();
        let replies = self.replies.list();
        let buffers = self.buffers.list();
        assert_eq!((replies.len(), buffers.len()), (calls.len(), calls.len()));
        for (index, call) in calls.iter().enumerate() {
            println!("call {index}");
            let answer = answer(&Call::from_json(call));
            assert_answer(answer, &replies[index], &buffers[index]);
        }
    }

    /// Asserts that no call is answered: the format is refused.
    fn assert_not_begun(&self) {
        assert_eq!(
            (self.replies.list(), self.buffers.list()),
            (&[][..], &[][..])
        );
    }

    /// Compares all answers on an image, and gives the image afterwards.
    pub fn on_image(&self) -> Vec<u8> {
        let (reply, mut image) = self.format.on_image();
        assert_eq!(reply, *expected_reply(self.formatted));
        match reply[0] {
            0 => self.compare(|call| call.on_image(&mut image)),
            _ => self.assert_not_begun(),
        }
        assert_eq!(sha256_hex(&image), self.image.text());
        image
    }

    /// Compares all answers of the model, which begins only where the format is
    /// accepted.
    pub fn in_model(&self) {
        let expected = expected_reply(self.formatted);
        let Some(mut model) = self.format.in_model() else {
            assert_eq!(expected, [12, 0, 0, 0]);
            self.assert_not_begun();
            return;
        };
        assert_eq!(expected, [0; 4]);
        self.compare(|call| call.in_model(&mut model));
        assert_eq!(sha256_hex(&model.image()), self.image.text());
    }
}
