//! The program `first_track` as it is built and linked, fed on standard
//! input. It prints what the reference says of the same bytes.
//!
//! `both::first_track` runs it too, so that it is fed every first track of
//! the other tests.

use super::shared::build::{
    fresh, fresh_bad, record, set_record, set_word, three_files, word, BAD, FREE,
};
use dhegluubin::{FIRST_TRACK_LEN, IMAGE_LEN};
use std::fs::File;
use std::io::{ErrorKind, Write};
use std::path::Path;
use std::process::{Child, Command, Output, Stdio};

/// Where `host/build-library` leaves the program, from this package.
const PROGRAM: &str = "../../target/bin/first_track";

const FRESH: &str = "free 1434\ngood 1440\nheld 2\n";

fn start(input: Stdio) -> Child {
    let program = Path::new(env!("CARGO_MANIFEST_DIR")).join(PROGRAM);
    assert!(
        program.is_file(),
        "{} is missing: run host/build-library",
        program.display()
    );
    Command::new(program)
        .stdin(input)
        .stdout(Stdio::piped())
        .stderr(Stdio::piped())
        .spawn()
        .expect("the program starts")
}

/// What was printed by a run that ended well: with status 0, refusals too,
/// and without a word on standard error.
fn text(output: Output) -> String {
    assert!(output.status.success(), "{output:?}");
    assert!(output.stderr.is_empty(), "{output:?}");
    String::from_utf8(output.stdout).expect("it prints text")
}

/// Feeds the program these bytes, so many at a time, and gives what it prints.
fn printed_by_pieces(track: &[u8], piece: usize) -> String {
    let mut child = start(Stdio::piped());
    let mut pipe = child.stdin.take().expect("its input is a pipe");
    for bytes in track.chunks(piece) {
        match pipe.write_all(bytes) {
            // It may end as soon as it has seen a byte too many.
            Err(error) if error.kind() == ErrorKind::BrokenPipe => {
                assert!(track.len() > FIRST_TRACK_LEN, "it does not read a track");
                break;
            }
            written => written.expect("it takes its input"),
        }
    }
    drop(pipe);
    text(child.wait_with_output().expect("the program ends"))
}

/// What the program prints of these bytes, which is what the reference says.
pub fn printed(track: &[u8]) -> String {
    let printed = printed_by_pieces(track, track.len().max(1));
    assert_eq!(
        printed,
        reference::first_track_text(track),
        "program, then reference"
    );
    printed
}

/// What it prints of an image's first track.
fn says(image: &[u8]) -> String {
    printed(&image[..FIRST_TRACK_LEN])
}

/// The counts of good disks (§8.14).
#[test]
fn good_disks() {
    assert_eq!(says(&fresh()), FRESH);
    assert_eq!(says(&three_files()), "free 1413\ngood 1440\nheld 9\n");
    let mut image = fresh();
    set_record(&mut image, 479, [0xFD, 0, 0]);
    assert_eq!(says(&image), FRESH);
    reference::add(&mut image, b"all", 0, &vec![0xFF; 734_144]);
    assert_eq!(says(&image), "free 0\ngood 1440\nheld 480\n");
}

/// A first track has 9,216 bytes (§7.1).
#[test]
fn other_lengths_are_refused_with_1() {
    let image = fresh();
    for len in [
        0, 1, 96, 512, 1536, 4608, 9215, 9217, 9728, 65_536, 65_537, 200_000, IMAGE_LEN,
    ] {
        assert_eq!(printed(&image[..len]), "refused 1\n", "{len} bytes");
    }
    // Length goes before contents.
    assert_eq!(printed(&[0xFF; FIRST_TRACK_LEN + 1]), "refused 1\n");
    assert_eq!(printed(&[0xFF; FIRST_TRACK_LEN]), "refused 8\n");
}

#[test]
fn no_input_is_refused_with_1() {
    let output = start(Stdio::null()).wait_with_output();
    assert_eq!(text(output.expect("the program ends")), "refused 1\n");
}

#[test]
fn input_in_pieces() {
    let image = [fresh(), vec![0]].concat();
    for piece in [1, 7, 511, 512, 513, 4096, 9215] {
        let track = &image[..FIRST_TRACK_LEN];
        assert_eq!(printed_by_pieces(track, piece), FRESH, "by {piece}");
        for len in [FIRST_TRACK_LEN - 1, FIRST_TRACK_LEN + 1] {
            let words = printed_by_pieces(&image[..len], piece);
            assert_eq!(words, "refused 1\n", "{len} bytes by {piece}");
        }
    }
}

#[test]
fn input_from_a_file() {
    let path = Path::new(env!("CARGO_TARGET_TMPDIR")).join("first_track_input");
    for (len, expected) in [(FIRST_TRACK_LEN, FRESH), (IMAGE_LEN, "refused 1\n")] {
        std::fs::write(&path, &fresh()[..len]).expect("the file is written");
        let file = File::open(&path).expect("the file is there");
        let output = start(Stdio::from(file)).wait_with_output();
        assert_eq!(text(output.expect("the program ends")), expected);
    }
}

/// A wrong field of the disk header is 8, which the program prints without
/// its place (§7.8).
#[test]
fn each_header_field_is_refused_with_8() {
    for field in [0, 2, 24, 26, 28, 30, 32, 36, 38, 40, 56, 58, 74] {
        let mut image = three_files();
        let wrong = word(&image, field) ^ 0x0101;
        set_word(&mut image, field, wrong);
        assert_eq!(says(&image), "refused 8\n", "field at {field}");
    }
    for (blocks, over) in [(0, 0), (0, 32), (0, 1536), (1, 1600), (0xFFFF, 0xFFFF)] {
        let mut image = fresh();
        set_word(&mut image, 34, blocks);
        set_word(&mut image, 36, over);
        assert_eq!(says(&image), "refused 8\n", "{blocks} blocks, {over} over");
    }
}

/// A wrong record is 9, which the program prints without its place (§7.9).
#[test]
fn each_kind_of_wrong_record_is_refused_with_9() {
    let of_no_kind = [
        [0xF8, 0, 1],
        [0xF9, 0, 0],
        [0xFC, 0xFF, 0xFF],
        [0xFE, 0xFF, 0],
        [0xFE, 0, 0xFF],
        [0xFF; 3],
    ];
    let not_block_0 = [FREE, [0xFD, 0, 0], BAD, record(0, 0), record(0xF7F, 0xFFF)];
    let not_others = [[0xF8, 0, 0]];
    // The record of block 138 goes over the end of a sector.
    for block in [0, 1, 138, 309, 479] {
        let kinds: &[[u8; 3]] = match block {
            0 => &not_block_0,
            _ => &not_others,
        };
        for bytes in of_no_kind.iter().chain(kinds) {
            let mut image = fresh();
            set_record(&mut image, block, *bytes);
            assert_eq!(says(&image), "refused 9\n", "block {block}: {bytes:02X?}");
        }
    }
}

/// 11 names no place (§7.11).
#[test]
fn wrong_free_words_are_refused_with_11() {
    for free in [0, 1410, 1412, 1414, 1434, 0xFFFF] {
        let mut image = three_files();
        set_word(&mut image, 20, free);
        assert_eq!(says(&image), "refused 11\n", "free word {free}");
    }
    // A record more or less, with the word as it was.
    for bytes in [FREE, [0xFD, 0, 0], record(3, 9)] {
        let mut image = three_files();
        set_record(&mut image, 8, bytes);
        set_record(&mut image, 9, bytes);
        assert_eq!(says(&image), "refused 11\n", "{bytes:02X?}");
    }
}

/// Bad blocks are held (§8.14). A wrong good word is 19, without a place (§7.26).
#[test]
fn bad_blocks_and_good_words() {
    let mut image = fresh_bad(&[479, 2, 138, 2]);
    assert_eq!(says(&image), "free 1425\ngood 1431\nheld 5\n");
    for good in [0, 1428, 1430, 1432, 1434, 1440, 1431 + 256, 0xFFFF] {
        set_word(&mut image, 22, good);
        assert_eq!(says(&image), "refused 19\n", "good word {good}");
    }
    let all: Vec<u16> = (2..480).collect();
    assert_eq!(says(&fresh_bad(&all)), "free 0\ngood 6\nheld 480\n");
}

/// 8, 9, 19 and 11, in this order (§7.18 §8.14).
#[test]
fn refusals_in_order() {
    let mut image = three_files();
    set_word(&mut image, 20, 5);
    assert_eq!(says(&image), "refused 11\n");
    set_word(&mut image, 22, 5);
    assert_eq!(says(&image), "refused 19\n");
    set_record(&mut image, 479, [0xF8, 0, 0]);
    assert_eq!(says(&image), "refused 9\n");
    set_word(&mut image, 38, 6);
    assert_eq!(says(&image), "refused 8\n");
    assert_eq!(printed(&image[1..FIRST_TRACK_LEN]), "refused 1\n");
}
