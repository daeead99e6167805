//! Gzip files (RFC 1952), read.

use flate2::bufread::GzDecoder;
use std::io::Read;

/// The contents of a gzip file with one member; panics if the file is wrong.
pub fn gunzip(file: &[u8]) -> Vec<u8> {
    let mut decoder = GzDecoder::new(file);
    let mut contents = Vec::new();
    let read = decoder.read_to_end(&mut contents);
    read.unwrap_or_else(|error| panic!("not a gzip file: {error}"));
    // The decoder itself stops after the first member.
    assert!(decoder.into_inner().is_empty(), "more than one member");
    contents
}

#[cfg(test)]
mod tests {
    use super::*;
    use crate::hex::from_hex;

    /// A file of three letters, with its own name in the header.
    fn named() -> Vec<u8> {
        from_hex("1f8b08080000000000037800010300fcff616263c241243503000000")
    }

    /// The file with one bit changed of the byte at a place from its end.
    fn changed(from_end: usize) -> Vec<u8> {
        let mut file = named();
        let place = file.len() - from_end;
        file[place] ^= 1;
        file
    }

    #[test]
    fn file_with_a_name() {
        assert_eq!(gunzip(&named()), b"abc");
    }

    #[test]
    #[should_panic(expected = "not a gzip file")]
    fn wrong_signature() {
        gunzip(&changed(named().len()));
    }

    #[test]
    #[should_panic(expected = "not a gzip file")]
    fn wrong_crc() {
        gunzip(&changed(8));
    }

    #[test]
    #[should_panic(expected = "not a gzip file")]
    fn wrong_length() {
        gunzip(&changed(4));
    }

    #[test]
    #[should_panic(expected = "not a gzip file")]
    fn cut_off() {
        let file = named();
        gunzip(&file[..file.len() - 1]);
    }

    #[test]
    #[should_panic(expected = "more than one member")]
    fn nothing_may_follow() {
        gunzip(&[named(), named()].concat());
    }
}
