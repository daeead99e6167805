//! Patterns of file names: `*` stands for any bytes, none too, and `?` for one
//! byte. A to Z count as a to z, as they do where the library compares names
//! (§6.14). `\x2A` and `\x3F` are a star and a question mark of a name.

use std::ffi::OsStr;

use crate::names::{self, Letter};

/// A part of a pattern.
#[derive(Clone, Copy, Debug, PartialEq, Eq)]
enum Part {
    Byte(u8),
    AnyByte,
    AnyBytes,
}

/// What a name has to look like.
#[derive(Clone, Debug, PartialEq, Eq)]
pub struct Pattern {
    parts: Vec<Part>,
    /// As it was given.
    text: String,
}

/// A pattern from the command line.
pub fn parse(text: &OsStr) -> Result<Pattern, String> {
    let letters = names::letters(text)?;
    let parts = letters.into_iter().map(|letter| match letter {
        Letter::Plain(b'*') => Part::AnyBytes,
        Letter::Plain(b'?') => Part::AnyByte,
        Letter::Plain(byte) | Letter::Escaped(byte) => Part::Byte(byte),
    });
    Ok(Pattern {
        parts: parts.collect(),
        text: text.to_string_lossy().into_owned(),
    })
}

impl Pattern {
    /// Every name.
    pub fn all() -> Pattern {
        Pattern {
            parts: vec![Part::AnyBytes],
            text: String::from("*"),
        }
    }

    /// The pattern as it was given.
    pub fn text(&self) -> &str {
        &self.text
    }

    /// The name, if the pattern stands for one alone.
    pub fn one_name(&self) -> Option<Vec<u8>> {
        let byte = |part: &Part| match part {
            Part::Byte(byte) => Some(*byte),
            Part::AnyByte | Part::AnyBytes => None,
        };
        self.parts.iter().map(byte).collect()
    }

    /// Whether a name is as the pattern says.
    pub fn matches(&self, name: &[u8]) -> bool {
        // Whether the parts so far stand for the first bytes of the name, by
        // their count: 0 to all of them.
        let mut reached = vec![false; name.len() + 1];
        if let Some(none) = reached.first_mut() {
            *none = true;
        }
        for &part in &self.parts {
            reached = after(part, &reached, name);
        }
        reached.last().copied().unwrap_or(false)
    }
}

/// The counts that are reached with one more part.
fn after(part: Part, reached: &[bool], name: &[u8]) -> Vec<bool> {
    if part == Part::AnyBytes {
        let so_far = reached.iter().scan(false, |any, &now| {
            *any |= now;
            Some(*any)
        });
        return so_far.collect();
    }
    let next = reached.iter().zip(name).map(|(&before, &byte)| {
        before
            && match part {
                Part::Byte(wanted) => wanted.eq_ignore_ascii_case(&byte),
                Part::AnyByte | Part::AnyBytes => true,
            }
    });
    std::iter::once(false).chain(next).collect()
}

#[cfg(test)]
mod tests {
    use super::*;

    fn pattern(text: &str) -> Pattern {
        parse(OsStr::new(text)).unwrap()
    }

    #[test]
    fn what_they_match() {
        for (text, yes, no) in [
            (
                "boot",
                &["boot", "BOOT", "bOOt"][..],
                &["boo", "boots", ""][..],
            ),
            ("*", &["", "a", "cue_7", "*"], &[]),
            ("cue_*", &["cue_", "CUE_7", "cue_7b"], &["cue", "xcue_7"]),
            ("*_txt", &["_txt", "a_txt", "a_txt_txt"], &["a_txt1", "txt"]),
            (
                "a*b*c",
                &["abc", "axbxc", "abbcc", "aXXbYYc"],
                &["acb", "ab", "abcd"],
            ),
            ("cue_?", &["cue_7", "cue_?"], &["cue_", "cue_77"]),
            ("??", &["ab"], &["a", "abc", ""]),
            ("?*", &["a", "ab"], &[""]),
            ("a\\x2Ab", &["a*b"], &["axb", "ab"]),
            ("a\\x3f", &["a?"], &["ab"]),
            ("\\x41", &["a", "A"], &["b"]),
            ("", &[""], &["a"]),
        ] {
            for name in yes {
                assert!(pattern(text).matches(name.as_bytes()), "{text}: {name}");
            }
            for name in no {
                assert!(!pattern(text).matches(name.as_bytes()), "{text}: {name}");
            }
        }
    }

    /// Only A to Z count as other bytes.
    #[test]
    fn letters_alone_fold() {
        for (one, other) in [(b'@', b'`'), (b'[', b'{'), (0xC1, 0xE1)] {
            let exact = pattern(&format!("\\x{one:02X}"));
            assert!(exact.matches(&[one]));
            assert!(!exact.matches(&[other]));
        }
    }

    #[test]
    fn names_alone() {
        assert_eq!(pattern("cue_7").one_name(), Some(b"cue_7".to_vec()));
        assert_eq!(pattern("a\\x2A").one_name(), Some(b"a*".to_vec()));
        assert_eq!(pattern("cue_*").one_name(), None);
        assert_eq!(pattern("cue_?").one_name(), None);
        assert!(parse(OsStr::new("a\\q*")).is_err());
        assert!(Pattern::all().matches(b"anything"));
    }

    /// A pattern with many stars takes no time to speak of.
    #[test]
    fn many_stars() {
        let text = "*a".repeat(500);
        assert!(!pattern(&text).matches(&[b'a'; 36]));
    }
}
