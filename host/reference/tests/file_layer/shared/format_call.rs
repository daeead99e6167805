//! A format with its arguments: of an image, and in the model.

use super::answer::{format, format_bad, Parts};
use reference::geometry::IMAGE_LEN;
use reference::model::Model;
use support::hex::from_hex;
use support::json::{Contents, Value};
use support::noise::noise;

/// A format of an image of noise.
#[derive(Clone, Debug)]
pub struct FormatCall {
    pub name: Vec<u8>,
    pub number: u16,
    /// The seed of what the image holds before.
    pub old: u32,
    /// The list of bad blocks; the plain format is called where there is none.
    pub bad: Option<Vec<u16>>,
}

impl FormatCall {
    /// The plain format of these members.
    pub fn without_list([name, number, old]: [&Value; 3]) -> FormatCall {
        FormatCall {
            name: from_hex(name.text()),
            number: word(number),
            old: u32::try_from(old.number()).unwrap(),
            bad: None,
        }
    }

    /// The format of a case, which has a list only from request Six on.
    pub fn from_json(format: &Value) -> FormatCall {
        if !format.has("bad") {
            return FormatCall::without_list(format.members(["name", "number", "old"]));
        }
        let [name, number, old, bad] = format.members(["name", "number", "old", "bad"]);
        FormatCall {
            bad: Some(bad.list().iter().map(word).collect()),
            ..FormatCall::without_list([name, number, old])
        }
    }

    /// The reply that is given, and the image afterwards.
    pub fn on_image(&self) -> (Parts, Vec<u8>) {
        let mut image = noise(self.old, IMAGE_LEN);
        let reply = match &self.bad {
            None => format(&mut image, &self.name, self.number),
            Some(bad) => format_bad(&mut image, &self.name, self.number, bad),
        };
        (reply, image)
    }

    /// The model that begins with it, where it is accepted.
    pub fn in_model(&self) -> Option<Model> {
        let bad = self.bad.as_deref().unwrap_or_default();
        Model::format_bad(&self.name, self.number, bad)
    }
}

/// A number of 16 bits.
fn word(value: &Value) -> u16 {
    u16::try_from(value.number()).unwrap()
}
