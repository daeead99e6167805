//! What the colours of the picture mean, and the files of the disk.

use crate::blocks::{Blocks, Kind};
use crate::entries::Entry;
use crate::names;

use super::text::{escaped, shortened};
use super::{class, colour, cross, LEFT, SQUARE, WIDTH};

/// From one line of the legend to the next.
const LINE: usize = 20;

/// Files side by side: a name of the greatest length, its bytes and its blocks
/// have room in half of the width.
const COLUMNS: usize = 2;
const COLUMN_WIDTH: usize = (WIDTH - LEFT) / COLUMNS;

/// Most characters of a name that have room; names have 36 bytes at most, and
/// more characters only where bytes are escaped.
const NAME_ROOM: usize = 36;

/// Where bytes and blocks of a file end, from the left of its column.
const BYTES_END: usize = 346;
const BLOCKS_END: usize = 408;

/// Where each kind stands, from the left of the squares: counts of three digits
/// have room.
const KIND_PLACES: [usize; 5] = [0, 130, 320, 490, 660];

/// Colours of files in the one swatch that stands for all of them.
const STRIPES: usize = 4;

/// The legend from this height on, and the height where the picture ends.
pub fn drawn(blocks: &Blocks, top: usize) -> (String, usize) {
    let files_top = top + LINE + 12;
    let lines = blocks.files.len().div_ceil(COLUMNS);
    let headed = usize::from(lines > 0);
    let height = files_top + (lines + headed) * LINE + 12;
    let mut text = kinds(blocks, top);
    if lines > 0 {
        text.push_str(&headings(files_top, blocks.files.len().min(COLUMNS)));
    }
    for (index, file) in blocks.files.iter().enumerate() {
        let x = LEFT + index / lines.max(1) * COLUMN_WIDTH;
        let y = files_top + (1 + index % lines.max(1)) * LINE;
        text.push_str(&line(blocks, index, file, x, y));
    }
    (text, height)
}

/// Each kind with how many blocks are of it.
fn kinds(blocks: &Blocks, y: usize) -> String {
    let shown = [
        (Kind::Map, "map", blocks.count(Kind::Map)),
        (Kind::Directory, "directory", blocks.count(Kind::Directory)),
        (Kind::File(0), "files", blocks.file_count()),
        (Kind::Free, "free", blocks.count(Kind::Free)),
        (Kind::Bad, "bad", blocks.count(Kind::Bad)),
    ];
    let places = KIND_PLACES.map(|place| LEFT + place);
    shown
        .into_iter()
        .zip(places)
        .map(|((kind, words, count), x)| {
            format!(
                "<g class=\"kind {}\">{}{}\
                 <text x=\"{}\" y=\"{}\">{words}: {}</text></g>\n",
                class(kind),
                swatch(colour(kind), x, y),
                drawn_over(kind, x, y),
                x + SQUARE + 6,
                y + 12,
                counted(count)
            )
        })
        .collect()
}

fn counted(blocks: usize) -> String {
    match blocks {
        1 => String::from("1 block"),
        _ => format!("{blocks} blocks"),
    }
}

/// What a kind's swatch has besides its colour: files have many colours.
fn drawn_over(kind: Kind, x: usize, y: usize) -> String {
    let Kind::File(_) = kind else {
        return cross(kind, x, y);
    };
    let width = SQUARE / STRIPES;
    let stripe = |number: usize| {
        format!(
            "<rect class=\"stripe\" x=\"{}\" y=\"{y}\" width=\"{width}\" \
             height=\"{SQUARE}\" fill=\"{}\"/>",
            x + number * width,
            colour(Kind::File(number))
        )
    };
    (0..STRIPES).map(stripe).collect()
}

fn swatch(fill: &str, x: usize, y: usize) -> String {
    format!(
        "<rect class=\"swatch\" x=\"{x}\" y=\"{y}\" width=\"{SQUARE}\" height=\"{SQUARE}\" \
         fill=\"{fill}\" stroke=\"#999999\" stroke-width=\"0.5\"/>"
    )
}

/// What the columns of the files have.
fn headings(y: usize, columns: usize) -> String {
    let places = (LEFT..).step_by(COLUMN_WIDTH).take(columns);
    places
        .map(|x| {
            let y = y + 12;
            format!(
                "<g class=\"headings\" fill=\"#666666\"><text x=\"{}\" y=\"{y}\">file</text>\
                 {}{}</g>\n",
                x + SQUARE + 6,
                number("heading", "bytes", x + BYTES_END, y),
                number("heading", "blocks", x + BLOCKS_END, y)
            )
        })
        .collect()
}

/// A text that ends at this place.
fn number(class: &str, text: &str, x: usize, y: usize) -> String {
    format!("<text class=\"{class}\" x=\"{x}\" y=\"{y}\" text-anchor=\"end\">{text}</text>")
}

/// The line of a file: colour, name, bytes of data and blocks.
fn line(blocks: &Blocks, index: usize, file: &Entry, x: usize, y: usize) -> String {
    let name = names::shown(&file.name);
    let count = blocks.count(Kind::File(index));
    format!(
        "<g class=\"entry\" data-file=\"{index}\"><title>{}</title>{}\
         <text class=\"name\" x=\"{}\" y=\"{}\">{}</text>{}{}</g>\n",
        escaped(&name),
        swatch(colour(Kind::File(index)), x, y),
        x + SQUARE + 6,
        y + 12,
        escaped(&shortened(&name, NAME_ROOM)),
        number("bytes", &file.length.to_string(), x + BYTES_END, y + 12),
        number("blocks", &count.to_string(), x + BLOCKS_END, y + 12)
    )
}
