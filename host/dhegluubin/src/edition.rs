//! Which HFE version an image is of.

use std::fmt;

/// An HFE version that [`unpack`](crate::unpack) reads. [`pack`](crate::pack)
/// writes version 1, and [`rewrite`](crate::rewrite) takes that alone.
///
/// ```
/// use dhegluubin::Edition;
///
/// let newer = b"HXCHFEV3 and all that follows";
/// assert_eq!(Edition::of(newer), Some(Edition::Version3));
/// assert_eq!(Edition::Version3.to_string(), "HFE version 3");
/// assert_eq!(Edition::of(b"HXCHFE"), None);
/// ```
#[derive(Clone, Copy, Debug, PartialEq, Eq, Hash)]
pub enum Edition {
    /// Letters `HXCPICFE`: all bytes of a side give cells.
    Version1,
    /// Letters `HXCHFEV3`: codes may stand among the bytes of a side.
    Version3,
}

impl Edition {
    /// The edition by the first eight bytes of an image, which are letters;
    /// none where they are of no edition that is read, or too few. Nothing else
    /// of the image is judged.
    pub fn of(hfe: &[u8]) -> Option<Edition> {
        match hfe.first_chunk()? {
            b"HXCPICFE" => Some(Edition::Version1),
            b"HXCHFEV3" => Some(Edition::Version3),
            _ => None,
        }
    }
}

impl fmt::Display for Edition {
    fn fmt(&self, f: &mut fmt::Formatter<'_>) -> fmt::Result {
        f.write_str(match self {
            Edition::Version1 => "HFE version 1",
            Edition::Version3 => "HFE version 3",
        })
    }
}

#[cfg(test)]
mod tests {
    use super::*;

    /// Eight letters decide, whatever follows them.
    #[test]
    fn by_its_letters() {
        for (letters, edition, words) in [
            (b"HXCPICFE", Edition::Version1, "HFE version 1"),
            (b"HXCHFEV3", Edition::Version3, "HFE version 3"),
        ] {
            assert_eq!(Edition::of(letters), Some(edition));
            assert_eq!(
                Edition::of(&[letters, &[0xFF; 9][..]].concat()),
                Some(edition)
            );
            assert_eq!(edition.to_string(), words);
            for at in 0..8 {
                assert_eq!(Edition::of(&letters[..at]), None);
                let mut other = *letters;
                other[at] ^= 0x20;
                assert_eq!(Edition::of(&other), None);
            }
        }
        assert_eq!(Edition::of(b""), None);
    }
}
