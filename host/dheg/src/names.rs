//! Names of files and disks: any bytes, as text.
//!
//! `\xHH` stands for the byte with this hexadecimal value, `\\` for a
//! backslash; every other character stands for its own bytes, those of UTF-8
//! where it is not ASCII. What is shown can be given back as it is.
//!
//! Which names are equal the library judges; only patterns are compared here
//! (`patterns`).

use std::ffi::OsStr;

/// The bytes of a name from the command line. How many a name may have is
/// judged by the library.
pub fn parse(text: &OsStr) -> Result<Vec<u8>, String> {
    let letters = letters(text)?.into_iter();
    let bytes = letters.map(|letter| match letter {
        Letter::Plain(byte) | Letter::Escaped(byte) => byte,
    });
    Ok(bytes.collect())
}

/// A byte, and whether it was written with a backslash.
#[derive(Clone, Copy, Debug, PartialEq, Eq)]
pub enum Letter {
    Plain(u8),
    Escaped(u8),
}

/// What a text stands for, byte by byte.
pub fn letters(text: &OsStr) -> Result<Vec<Letter>, String> {
    let mut rest = text.as_encoded_bytes().iter().copied();
    let mut letters = Vec::new();
    while let Some(byte) = rest.next() {
        let letter = match byte {
            b'\\' => escaped(&mut rest).map(Letter::Escaped),
            plain => Some(Letter::Plain(plain)),
        };
        letters.push(letter.ok_or_else(|| wrong(text))?);
    }
    Ok(letters)
}

fn wrong(text: &OsStr) -> String {
    format!(
        "in the name {} a backslash is not followed by xHH or another backslash",
        text.to_string_lossy()
    )
}

/// The byte that stands after a backslash.
fn escaped(rest: &mut impl Iterator<Item = u8>) -> Option<u8> {
    match rest.next()? {
        b'\\' => Some(b'\\'),
        b'x' => Some(digit(rest.next()?)? << 4 | digit(rest.next()?)?),
        _ => None,
    }
}

/// The value of a hexadecimal digit.
fn digit(byte: u8) -> Option<u8> {
    let value = char::from(byte).to_digit(16)?;
    u8::try_from(value).ok()
}

/// A name as text. Bytes that are not printable ASCII are escaped, and so are
/// spaces at either end, which one would not see, what a pattern would take for
/// more than itself, and at the start what an option or a quoted word begins with.
pub fn shown(name: &[u8]) -> String {
    let last = name.len().saturating_sub(1);
    let mut text = String::new();
    for (at, &byte) in name.iter().enumerate() {
        match byte {
            b'\\' => text.push_str("\\\\"),
            b' ' if at != 0 && at != last => text.push(' '),
            b'*' | b'?' => text.push_str(&escape(byte)),
            b'-' | b'"' if at == 0 => text.push_str(&escape(byte)),
            b'!'..=b'~' => text.push(char::from(byte)),
            _ => text.push_str(&escape(byte)),
        }
    }
    text
}

fn escape(byte: u8) -> String {
    format!("\\x{byte:02X}")
}

#[cfg(test)]
mod tests {
    use super::*;
    use std::ffi::OsString;

    fn parsed(text: &str) -> Vec<u8> {
        parse(OsStr::new(text)).unwrap()
    }

    #[test]
    fn plain_and_escaped() {
        assert_eq!(parsed(""), b"");
        assert_eq!(parsed("letter_txt"), b"letter_txt");
        assert_eq!(parsed("two words"), b"two words");
        assert_eq!(parsed("a\\x00\\xfF\\\\x41"), b"a\x00\xFF\\x41");
        assert_eq!(parsed("\\x2D-date"), b"--date");
        assert_eq!(parsed("\u{E9}"), [0xC3, 0xA9]);
    }

    #[test]
    fn wrong_escapes() {
        for text in ["\\", "\\x", "\\x4", "\\xG0", "\\x0G", "\\n", "a\\X41"] {
            assert!(parse(OsStr::new(text)).is_err(), "{text}");
        }
    }

    #[test]
    fn shown_in_words() {
        assert_eq!(shown(b""), "");
        assert_eq!(shown(b"letter_txt"), "letter_txt");
        assert_eq!(shown(b" two words "), "\\x20two words\\x20");
        assert_eq!(shown(b" "), "\\x20");
        assert_eq!(shown(b"a*b?"), "a\\x2Ab\\x3F");
        assert_eq!(shown(b"-a-\""), "\\x2Da-\"");
        assert_eq!(shown(b"\"a\""), "\\x22a\"");
        assert_eq!(shown(b"\x00\x1F\x7F\xFF\\"), "\\x00\\x1F\\x7F\\xFF\\\\");
    }

    #[test]
    fn every_byte_comes_back() {
        let all: Vec<u8> = (0..=255).collect();
        for name in all.windows(36).chain(all.chunks(1)) {
            let text = OsString::from(shown(name));
            assert_eq!(parse(&text).unwrap(), name);
        }
    }

    #[cfg(unix)]
    #[test]
    fn bytes_that_are_not_text() {
        use std::os::unix::ffi::OsStrExt;

        assert_eq!(parse(OsStr::from_bytes(b"a\xFFb")).unwrap(), b"a\xFFb");
    }
}
