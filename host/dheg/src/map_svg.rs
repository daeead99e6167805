//! The map of a disk as a picture: a complete SVG document.

mod legend;
mod text;

#[cfg(test)]
mod tests;

use crate::blocks::{Blocks, Kind};
use crate::names;

use text::{escaped, shortened};

/// Blocks in a row: those of eight tracks (§1.1).
const ROW: usize = 48;

/// From one square to the next, and the side of a square.
const STEP: usize = 18;
const SQUARE: usize = 16;

/// Where the squares begin; row numbers stand at the left, the title above.
const LEFT: usize = 48;
const TOP: usize = 48;

const WIDTH: usize = LEFT + ROW * STEP + 16;

/// Most characters of the title that have room above the squares.
const TITLE_ROOM: usize = 90;

/// Colours of files, one after the other and then again from the first. None of
/// them is that of another kind.
const FILE_COLOURS: [&str; 12] = [
    "#4e79a7", "#f28e2b", "#59a14f", "#edc948", "#b07aa1", "#76b7b2", "#ff9da7", "#9c755f",
    "#1f9bcf", "#b6992d", "#8cd17d", "#d37295",
];

/// The picture of a disk's blocks, with this title.
pub fn drawn(title: &str, blocks: &Blocks) -> String {
    let legend_top = TOP + blocks.kinds.chunks(ROW).count() * STEP + 16;
    let (legend, height) = legend::drawn(blocks, legend_top);
    format!(
        "<?xml version=\"1.0\" encoding=\"UTF-8\"?>\n\
         <svg xmlns=\"http://www.w3.org/2000/svg\" version=\"1.1\" \
         width=\"{WIDTH}\" height=\"{height}\" viewBox=\"0 0 {WIDTH} {height}\" \
         font-family=\"monospace\" font-size=\"12\" fill=\"#222222\">\n\
         <title>{}</title>\n\
         <rect class=\"ground\" width=\"{WIDTH}\" height=\"{height}\" fill=\"#ffffff\"/>\n\
         <text class=\"heading\" x=\"{LEFT}\" y=\"30\" font-size=\"16\">{}</text>\n\
         {}{}{legend}</svg>\n",
        escaped(title),
        escaped(&shortened(title, TITLE_ROOM)),
        row_numbers(blocks),
        squares(blocks)
    )
}

/// The number of each row's first block.
fn row_numbers(blocks: &Blocks) -> String {
    let rows = 0..blocks.kinds.chunks(ROW).count();
    rows.map(|row| {
        format!(
            "<text class=\"row\" x=\"{}\" y=\"{}\" text-anchor=\"end\">{}</text>\n",
            LEFT - 8,
            TOP + row * STEP + 12,
            row * ROW
        )
    })
    .collect()
}

fn squares(blocks: &Blocks) -> String {
    let kinds = blocks.kinds.iter().enumerate();
    kinds
        .map(|(block, &kind)| square(blocks, block, kind))
        .collect()
}

/// The square of a block, with what it is for whoever points at it.
fn square(blocks: &Blocks, block: usize, kind: Kind) -> String {
    let x = LEFT + block % ROW * STEP;
    let y = TOP + block / ROW * STEP;
    let class = class(kind);
    let fill = colour(kind);
    let file = match kind {
        Kind::File(file) => format!(" data-file=\"{file}\""),
        _ => String::new(),
    };
    let words = escaped(&format!("block {block}: {}", words(blocks, block, kind)));
    format!(
        "<rect class=\"block {class}\" data-block=\"{block}\"{file} x=\"{x}\" y=\"{y}\" \
         width=\"{SQUARE}\" height=\"{SQUARE}\" fill=\"{fill}\" stroke=\"#999999\" \
         stroke-width=\"0.5\"><title>{words}</title></rect>{}\n",
        cross(kind, x, y)
    )
}

/// A bad block has a cross, so that it is told from the others without colour
/// too. The pointer goes through it to the square.
fn cross(kind: Kind, x: usize, y: usize) -> String {
    if kind != Kind::Bad {
        return String::new();
    }
    let (left, top) = (x + 3, y + 3);
    let (right, bottom) = (x + SQUARE - 3, y + SQUARE - 3);
    format!(
        "<path class=\"cross\" d=\"M{left} {top}L{right} {bottom}M{right} {top}L{left} {bottom}\" \
         stroke=\"#d00000\" stroke-width=\"2\" fill=\"none\" pointer-events=\"none\"/>"
    )
}

/// What a block is, in words.
fn words(blocks: &Blocks, block: usize, kind: Kind) -> String {
    let part = || {
        let part = blocks.parts.get(block).map_or(0, |part| part + 1);
        format!("part {part} of {}", blocks.count(kind))
    };
    match kind {
        Kind::Map => String::from("map"),
        Kind::Directory => format!("directory, {}", part()),
        Kind::File(file) => {
            let name = blocks
                .files
                .get(file)
                .map(|entry| names::shown(&entry.name));
            format!("{}, {}", name.unwrap_or_default(), part())
        }
        Kind::Free => String::from("free"),
        Kind::Bad => String::from("bad"),
    }
}

fn class(kind: Kind) -> &'static str {
    match kind {
        Kind::Map => "map",
        Kind::Directory => "directory",
        Kind::File(_) => "file",
        Kind::Free => "free",
        Kind::Bad => "bad",
    }
}

fn colour(kind: Kind) -> &'static str {
    match kind {
        Kind::Map => "#222222",
        Kind::Directory => "#6a1b9a",
        Kind::File(file) => {
            let colour = FILE_COLOURS.get(file % FILE_COLOURS.len());
            colour.copied().unwrap_or("#4e79a7")
        }
        Kind::Free => "#eeeeee",
        Kind::Bad => "#ffe0e0",
    }
}
