//! A refusal in words.

use std::fmt;

use super::Refusal;
use crate::reply::Lent;

impl Refusal {
    /// What is wrong, without number and places.
    const fn words(self) -> &'static str {
        match self {
            Refusal::Length { lent: Lent::Hfe } => "HFE image of a wrong length",
            Refusal::Length { lent: Lent::Blocks } => {
                "block image or first track of a wrong length"
            }
            Refusal::HfeHeader { .. } => "HFE header wrong",
            Refusal::TrackTable { .. } => "track table wrong",
            Refusal::NoHeader { .. } => "no header",
            Refusal::SeveralHeaders { .. } => "two or more headers",
            Refusal::NoDataField { .. } => "no data field",
            Refusal::DataCrc { .. } => "data CRC wrong",
            Refusal::DiskHeader { .. } => "disk header wrong",
            Refusal::MapRecord { .. } => "map record wrong",
            Refusal::Directory { .. } => "directory not sound",
            Refusal::FreeWord => "free-sector word does not fit the map",
            Refusal::Argument => "name, block, sector or data out of range",
            Refusal::NamePresent { .. } => "name already present",
            Refusal::NoSuchName => "no file of this name",
            Refusal::TooFewBlocks => "too few free blocks",
            Refusal::BufferTooShort { .. } => "buffer too short",
            Refusal::Misread => "rewritten, the image would be misread",
            Refusal::WrongCode { .. } => "wrong code",
            Refusal::GoodWord => "good-sector word does not fit the map",
            Refusal::WrongItem { .. } => "list wrong",
            Refusal::Unknown { .. } => "unknown answer",
        }
    }
}

impl fmt::Display for Refusal {
    fn fmt(&self, f: &mut fmt::Formatter<'_>) -> fmt::Result {
        let [number, first, second, third] = self.reply().parts();
        write!(f, "refused {number}: {}", self.words())?;
        match self {
            Refusal::HfeHeader { .. } | Refusal::DiskHeader { .. } => {
                write!(f, " at byte {first}")
            }
            Refusal::TrackTable { .. } => write!(f, " at track {first}"),
            Refusal::NoHeader { .. }
            | Refusal::SeveralHeaders { .. }
            | Refusal::NoDataField { .. }
            | Refusal::DataCrc { .. } => {
                write!(f, " at track {first}, side {second}, sector {third}")
            }
            Refusal::WrongCode { .. } => {
                write!(f, " at track {first}, side {second}, byte {third}")
            }
            Refusal::MapRecord { .. } => write!(f, " at block {first}"),
            Refusal::Directory { .. } => write!(f, " at file {first}"),
            Refusal::NamePresent { .. } => write!(f, " in slot {first}"),
            Refusal::BufferTooShort { .. } => write!(f, ", {first} bytes needed"),
            Refusal::WrongItem { .. } => write!(f, " at item {third}"),
            Refusal::Unknown { .. } => write!(f, " with places {first}, {second}, {third}"),
            Refusal::Length { .. }
            | Refusal::FreeWord
            | Refusal::Argument
            | Refusal::NoSuchName
            | Refusal::TooFewBlocks
            | Refusal::Misread
            | Refusal::GoodWord => Ok(()),
        }
    }
}

#[cfg(test)]
mod tests {
    use crate::reply::Reply;

    fn words(parts: [usize; 4]) -> String {
        Reply::new(parts).result().unwrap_err().to_string()
    }

    /// An answer of each number, in words.
    const IN_WORDS: [([usize; 4], &str); 22] = [
        ([1, 1, 0, 0], "refused 1: HFE image of a wrong length"),
        (
            [1, 2, 0, 0],
            "refused 1: block image or first track of a wrong length",
        ),
        ([2, 18, 0, 0], "refused 2: HFE header wrong at byte 18"),
        ([3, 79, 0, 0], "refused 3: track table wrong at track 79"),
        (
            [4, 0, 0, 1],
            "refused 4: no header at track 0, side 0, sector 1",
        ),
        (
            [5, 41, 1, 9],
            "refused 5: two or more headers at track 41, side 1, sector 9",
        ),
        (
            [6, 79, 0, 2],
            "refused 6: no data field at track 79, side 0, sector 2",
        ),
        (
            [7, 3, 1, 4],
            "refused 7: data CRC wrong at track 3, side 1, sector 4",
        ),
        ([8, 34, 0, 0], "refused 8: disk header wrong at byte 34"),
        ([9, 479, 0, 0], "refused 9: map record wrong at block 479"),
        ([10, 0, 0, 0], "refused 10: directory not sound at file 0"),
        (
            [11, 0, 0, 0],
            "refused 11: free-sector word does not fit the map",
        ),
        (
            [12, 0, 0, 0],
            "refused 12: name, block, sector or data out of range",
        ),
        ([13, 5, 0, 0], "refused 13: name already present in slot 5"),
        ([14, 0, 0, 0], "refused 14: no file of this name"),
        ([15, 0, 0, 0], "refused 15: too few free blocks"),
        (
            [16, 1500, 0, 0],
            "refused 16: buffer too short, 1500 bytes needed",
        ),
        (
            [17, 0, 0, 0],
            "refused 17: rewritten, the image would be misread",
        ),
        (
            [18, 40, 1, 12_499],
            "refused 18: wrong code at track 40, side 1, byte 12499",
        ),
        (
            [19, 0, 0, 0],
            "refused 19: good-sector word does not fit the map",
        ),
        ([20, 0, 0, 7], "refused 20: list wrong at item 7"),
        (
            [21, 1, 2, 3],
            "refused 21: unknown answer with places 1, 2, 3",
        ),
    ];

    #[test]
    fn each_number_in_words() {
        for (parts, expected) in IN_WORDS {
            assert_eq!(words(parts), expected);
        }
    }
}
