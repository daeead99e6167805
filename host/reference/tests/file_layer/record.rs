//! Map records and their bytes.

use reference::layout::record::Record;

/// 12 bits of file number and 12 of sequence (§6.8).
#[test]
fn stated_record() {
    let record = Record::File {
        file: 0x2A5,
        sequence: 0x013,
    };
    assert_eq!(Record::read([0x2A, 0x50, 0x13]), Some(record));
    assert_eq!(record.bytes(), [0x2A, 0x50, 0x13]);
}

/// Kinds of record by their bytes (§6.9).
#[test]
fn kinds_of_record() {
    assert_eq!(Record::read([0xF8, 0, 0]), Some(Record::System));
    for none in [
        [0xF8, 0x00, 0x01],
        [0xF8, 0x01, 0x00],
        [0xF9, 0x00, 0x00],
        [0xFC, 0xFF, 0xFF],
        [0xFF, 0xFF, 0xFF],
    ] {
        assert_eq!(Record::read(none), None, "{none:02X?}");
    }
    let highest = Record::File {
        file: 0xF7F,
        sequence: 0xFFF,
    };
    assert_eq!(Record::read([0xF7, 0xFF, 0xFF]), Some(highest));
}

/// FD is free with every tail, and is written with FF FF (§6.9).
#[test]
fn free_by_the_first_byte() {
    for tail in 0..=0xFFFFu16 {
        let [second, third] = tail.to_be_bytes();
        let read = Record::read([0xFD, second, third]);
        assert_eq!(read, Some(Record::Free), "tail {tail:04X}");
    }
    assert_eq!(Record::Free.bytes(), [0xFD, 0xFF, 0xFF]);
}

/// FE is bad with the tail FF FF, and of no kind with every other (§6.9).
#[test]
fn bad_by_all_three_bytes() {
    for tail in 0..=0xFFFFu16 {
        let [second, third] = tail.to_be_bytes();
        let expected = (tail == 0xFFFF).then_some(Record::Bad);
        let read = Record::read([0xFE, second, third]);
        assert_eq!(read, expected, "tail {tail:04X}");
    }
}

#[test]
fn bytes_and_back() {
    for file in [0, 1, 0x00F, 0x010, 0x123, 0xF7F] {
        for sequence in [0, 1, 0x0FF, 0x100, 0xABC, 0xFFF] {
            let record = Record::File { file, sequence };
            assert_eq!(Record::read(record.bytes()), Some(record));
        }
    }
    for record in [Record::Free, Record::Bad, Record::System] {
        assert_eq!(Record::read(record.bytes()), Some(record));
    }
}
