//! Names for the files of a disk in a folder of the host.
//!
//! Letters, digits, `_`, `-` and `.` stand for themselves, every other byte is
//! written `%HH`. So are a dot or a dash at the start, a dot at the end, and the
//! first letter of a name that some system keeps for itself. Two files of a disk
//! never get names that are alike but for letter case.

/// The listing that stands beside the files.
pub const LISTING: &str = "dheg-listing.txt";

/// Names that some systems give to devices, whatever follows after a dot.
const DEVICES: [&str; 4] = ["con", "prn", "aux", "nul"];

/// Such names that end in a digit.
const NUMBERED_DEVICES: [&str; 2] = ["com", "lpt"];

/// The name for a file with this name on its disk.
pub fn host_name(name: &[u8]) -> String {
    let last = name.len().saturating_sub(1);
    let kept = is_kept_by_a_system(name) || name.eq_ignore_ascii_case(LISTING.as_bytes());
    let mut text = String::new();
    for (at, &byte) in name.iter().enumerate() {
        let plain = match byte {
            b'.' => at != 0 && at != last,
            b'-' => at != 0,
            b'_' => true,
            _ => byte.is_ascii_alphanumeric(),
        };
        if plain && !(kept && at == 0) {
            text.push(char::from(byte));
        } else {
            text.push_str(&format!("%{byte:02X}"));
        }
    }
    text
}

/// Whether a system takes the name for a device of its own.
fn is_kept_by_a_system(name: &[u8]) -> bool {
    let stem = name.split(|&byte| byte == b'.').next().unwrap_or_default();
    let is = |text: &str, stem: &[u8]| stem.eq_ignore_ascii_case(text.as_bytes());
    if DEVICES.iter().any(|device| is(device, stem)) {
        return true;
    }
    match stem.split_last() {
        Some((digit, stem)) if digit.is_ascii_digit() => {
            NUMBERED_DEVICES.iter().any(|device| is(device, stem))
        }
        _ => false,
    }
}

#[cfg(test)]
mod tests {
    use super::*;
    use std::collections::BTreeSet;

    #[test]
    fn plain_and_escaped() {
        for (name, expected) in [
            (&b"boot"[..], "boot"),
            (b"Cue_7-b.txt", "Cue_7-b.txt"),
            (b"two words", "two%20words"),
            (b"../../etc/passwd", "%2E.%2F..%2Fetc%2Fpasswd"),
            (b".", "%2E"),
            (b"..", "%2E%2E"),
            (b"-rf", "%2Drf"),
            (b"a.", "a%2E"),
            (b"a%20", "a%2520"),
            (b"\0\xFF\\", "%00%FF%5C"),
            (b"CON", "%43ON"),
            (b"nul.txt", "%6Eul.txt"),
            (b"com1", "%63om1"),
            (b"comb", "comb"),
            (b"console", "console"),
            (b"DHEG-listing.txt", "%44HEG-listing.txt"),
        ] {
            assert_eq!(host_name(name), expected);
        }
    }

    /// One file each: names that differ on a disk differ here, and not in letter
    /// case alone.
    #[test]
    fn different_names_stay_different() {
        let mut names: Vec<Vec<u8>> = (0..=255).map(|byte| vec![byte]).collect();
        names.extend((0..=255).map(|byte| vec![b'a', byte]));
        for text in ["con", "%63on", "%con", "c%6fn", "%2E", ".", "2e", "%2e"] {
            names.push(text.as_bytes().to_vec());
        }
        let equal: BTreeSet<_> = names.iter().map(|name| name.to_ascii_lowercase()).collect();
        let safe: BTreeSet<_> = equal
            .iter()
            .map(|name| host_name(name).to_ascii_lowercase())
            .collect();
        assert_eq!(safe.len(), equal.len());
        for name in safe {
            assert!(name
                .bytes()
                .all(|byte| byte.is_ascii_alphanumeric() || b"_-.%".contains(&byte)));
        }
    }
}
