//! A map record: 12 bits file, 12 bits sequence, highest first (§6.8).

/// Bytes of a map record.
pub const RECORD_LEN: usize = 3;

/// First bytes from this on belong to no file (§6.9).
pub const FIRST_NO_FILE: u8 = 0xF8;

/// File numbers that a record can bear are below this (§7.22).
pub const FILE_NUMBERS: usize = (FIRST_NO_FILE as usize) << 4;

/// What a map record says of its block.
#[derive(Clone, Copy, Debug, PartialEq, Eq)]
pub enum Record {
    /// The block is free.
    Free,
    /// The block is bad: no file is given it.
    Bad,
    /// The block holds header and map.
    System,
    /// The block is the one with this sequence number in the file.
    File {
        /// File number.
        file: usize,
        /// Sequence number.
        sequence: usize,
    },
}

impl Record {
    /// The record in these three bytes, if they are one. What follows FD is
    /// not looked at; what follows FE is (§6.9).
    pub fn read(bytes: [u8; RECORD_LEN]) -> Option<Record> {
        match bytes {
            [0xFD, _, _] => Some(Record::Free),
            [0xFE, 0xFF, 0xFF] => Some(Record::Bad),
            [0xF8, 0x00, 0x00] => Some(Record::System),
            [FIRST_NO_FILE..=0xFF, _, _] => None,
            [first, second, third] => {
                let [first, second, third] = [first, second, third].map(usize::from);
                Some(Record::File {
                    file: first << 4 | second >> 4,
                    sequence: (second & 0x0F) << 8 | third,
                })
            }
        }
    }

    /// Its bytes; file and sequence numbers have 12 bits each (§6.8).
    pub fn bytes(self) -> [u8; RECORD_LEN] {
        match self {
            Record::Free => [0xFD, 0xFF, 0xFF],
            Record::Bad => [0xFE, 0xFF, 0xFF],
            Record::System => [0xF8, 0x00, 0x00],
            Record::File { file, sequence } => [
                (file >> 4) as u8,
                ((file & 0x0F) << 4 | sequence >> 8) as u8,
                (sequence & 0xFF) as u8,
            ],
        }
    }
}
