//! The map of a disk as text.

use crate::blocks::{Blocks, Kind};

/// Blocks in a row: those of eight tracks (§1.1).
const ROW: usize = 48;

/// The blocks as characters, and a line that says how many of each kind there
/// are.
pub fn drawn(blocks: &Blocks) -> String {
    let mut text = String::new();
    for (row, kinds) in blocks.kinds.chunks(ROW).enumerate() {
        let line: String = kinds.iter().map(|&kind| letter(kind)).collect();
        text.push_str(&format!("{:3} {line}\n", row * ROW));
    }
    text.push_str(&format!(
        "blocks: M map {}, D directory {}, # files {}, . free {}, x bad {}\n",
        blocks.count(Kind::Map),
        blocks.count(Kind::Directory),
        blocks.file_count(),
        blocks.count(Kind::Free),
        blocks.count(Kind::Bad)
    ));
    text
}

fn letter(kind: Kind) -> char {
    match kind {
        Kind::Map => 'M',
        Kind::Directory => 'D',
        Kind::File(_) => '#',
        Kind::Free => '.',
        Kind::Bad => 'x',
    }
}

#[cfg(test)]
mod tests {
    use super::*;
    use crate::blocks;
    use dhegluubin::{add, format_bad, IMAGE_LEN};

    #[test]
    fn a_disk() {
        let mut image = vec![0; IMAGE_LEN];
        format_bad(&mut image, b"TEST", 1, &[3, 47, 48, 479]).unwrap();
        add(&mut image, b"one", 0, &[1; 2000]).unwrap();
        add(&mut image, b"two", 0, &[2; 2]).unwrap();
        let free = ".".repeat(48);
        let mut expected = format!("  0 MD#x##{}x\n 48 x{}\n", &free[..41], &free[..47]);
        for row in 2..9 {
            expected.push_str(&format!("{:3} {free}\n", 48 * row));
        }
        expected.push_str(&format!("432 {}x\n", &free[..47]));
        expected.push_str("blocks: M map 1, D directory 1, # files 3, . free 471, x bad 4\n");
        assert_eq!(drawn(&blocks::of(&image).unwrap()), expected);
    }
}
