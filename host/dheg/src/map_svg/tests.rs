//! The picture, read as XML.

use std::collections::BTreeSet;

use dhegluubin::{add, format_bad, remove, IMAGE_LEN};
use roxmltree::{Document, Node};

use super::*;
use crate::blocks;

/// A disk with bad blocks and so many files, of which some are removed again.
fn disk(files: usize) -> Blocks {
    let mut image = vec![0; IMAGE_LEN];
    format_bad(&mut image, b"TEST", 1, &[9, 100, 479]).unwrap();
    for number in 0..files {
        let name = format!("file_{number}");
        let data = vec![1; 700 * (number % 7)];
        add(&mut image, name.as_bytes(), 0, &data).unwrap();
    }
    for number in (3..files).step_by(5) {
        remove(&mut image, format!("file_{number}").as_bytes()).unwrap();
    }
    if files > 0 {
        add(&mut image, b"<&>\"'\x00\x1B\xFF]]>", 0, &[2; 9000]).unwrap();
    }
    blocks::of(&image).unwrap()
}

fn number(node: Node, name: &str) -> usize {
    node.attribute(name).unwrap().parse().unwrap()
}

/// All elements that have this among their classes.
fn of_class<'a>(document: &'a Document, class: &str) -> Vec<Node<'a, 'a>> {
    let has = |node: &Node| {
        let classes = node.attribute("class").unwrap_or_default();
        classes.split(' ').any(|found| found == class)
    };
    document.descendants().filter(has).collect()
}

/// Left, top, right and bottom of a rectangle.
fn bounds(rect: &Node) -> [usize; 4] {
    let [x, y, width, height] = ["x", "y", "width", "height"].map(|name| number(*rect, name));
    [x, y, x + width, y + height]
}

fn apart(one: [usize; 4], other: [usize; 4]) -> bool {
    one[2] <= other[0] || other[2] <= one[0] || one[3] <= other[1] || other[3] <= one[1]
}

#[test]
fn squares_and_swatches_do_not_overlap() {
    for files in [0, 1, 2, 3, 30, 200] {
        let picture = drawn("TEST", &disk(files));
        let document = Document::parse(&picture).unwrap();
        let root = document.root_element();
        assert_eq!(
            root.tag_name().namespace(),
            Some("http://www.w3.org/2000/svg")
        );
        let size = [number(root, "width"), number(root, "height")];
        let view_box = format!("0 0 {} {}", size[0], size[1]);
        assert_eq!(root.attribute("viewBox"), Some(&*view_box));
        let mut shapes = of_class(&document, "block");
        assert_eq!(shapes.len(), 480);
        shapes.extend(of_class(&document, "swatch"));
        let bounds: Vec<[usize; 4]> = shapes.iter().map(bounds).collect();
        for (index, one) in bounds.iter().enumerate() {
            assert!(one[2] <= size[0] && one[3] <= size[1]);
            assert!(bounds[..index].iter().all(|other| apart(*one, *other)));
        }
    }
}

/// Block numbers go along the rows, kinds and colours are those of the blocks.
#[test]
fn each_block_is_what_it_is() {
    let blocks = disk(30);
    let picture = drawn("TEST", &blocks);
    let document = Document::parse(&picture).unwrap();
    let squares = of_class(&document, "block");
    for (block, square) in squares.iter().enumerate() {
        assert_eq!(number(*square, "data-block"), block);
        let [x, y, ..] = bounds(square);
        assert_eq!([x, y], [48 + 18 * (block % 48), 48 + 18 * (block / 48)]);
        let (class, words) = match blocks.kinds[block] {
            Kind::Map => ("block map", String::from("map")),
            Kind::Directory => (
                "block directory",
                format!("directory, part {} of 2", blocks.parts[block] + 1),
            ),
            Kind::Free => ("block free", String::from("free")),
            Kind::Bad => ("block bad", String::from("bad")),
            Kind::File(file) => {
                assert_eq!(number(*square, "data-file"), file);
                let name = names::shown(&blocks.files[file].name);
                let part = blocks.parts[block] + 1;
                let count = blocks.count(Kind::File(file));
                ("block file", format!("{name}, part {part} of {count}"))
            }
        };
        assert_eq!(square.attribute("class"), Some(class));
        let title = square.first_element_child().unwrap();
        assert_eq!(title.tag_name().name(), "title");
        assert_eq!(title.text(), Some(&*format!("block {block}: {words}")));
    }
    // One for each bad block and one in the legend.
    assert_eq!(of_class(&document, "cross").len(), 4);
}

#[test]
fn files_have_the_colours_of_their_lines() {
    let blocks = disk(30);
    let picture = drawn("TEST", &blocks);
    let document = Document::parse(&picture).unwrap();
    let lines = of_class(&document, "entry");
    assert_eq!(lines.len(), blocks.files.len());
    for (index, (line, file)) in lines.iter().zip(&blocks.files).enumerate() {
        let part = |class: &str| {
            let has = |node: &Node| node.attribute("class") == Some(class);
            line.children().find(has).unwrap()
        };
        let fill = part("swatch").attribute("fill");
        let squares = of_class(&document, "block");
        let own = squares
            .iter()
            .filter(|square| square.attribute("data-file") == Some(&*index.to_string()));
        let fills: Vec<Option<&str>> = own.map(|square| square.attribute("fill")).collect();
        let count = blocks.count(Kind::File(index));
        assert_eq!(fills, vec![fill; count]);
        assert_eq!(part("name").text(), Some(&*names::shown(&file.name)));
        assert_eq!(part("bytes").text(), Some(&*file.length.to_string()));
        assert_eq!(part("blocks").text(), Some(&*count.to_string()));
    }
}

/// No file has the colour of the one before it or of another kind.
#[test]
fn colours_differ() {
    let kinds = [Kind::Map, Kind::Directory, Kind::Free, Kind::Bad];
    let mut colours: BTreeSet<&str> = kinds.into_iter().map(colour).collect();
    colours.extend(FILE_COLOURS);
    assert_eq!(colours.len(), kinds.len() + FILE_COLOURS.len());
    assert_eq!(colour(Kind::File(0)), FILE_COLOURS[0]);
    assert_eq!(colour(Kind::File(13)), FILE_COLOURS[1]);
}

#[test]
fn counts_of_kinds() {
    let blocks = disk(30);
    let picture = drawn("TEST", &blocks);
    let document = Document::parse(&picture).unwrap();
    let lines = of_class(&document, "kind");
    let texts: Vec<String> = lines
        .iter()
        .map(|line| line.children().filter_map(|child| child.text()).collect())
        .collect();
    let files = blocks.file_count();
    let free = format!("free: {} blocks", 474 - files);
    assert_eq!(
        texts,
        [
            "map: 1 block",
            "directory: 2 blocks",
            &*format!("files: {files} blocks"),
            &free,
            "bad: 3 blocks"
        ]
    );
}

/// Titles and names may have any characters and bytes, and any length.
#[test]
fn hostile_titles_and_names() {
    for (title, shown) in [
        ("<&>\"' ]]>", "<&>\"' ]]>"),
        ("a\u{0}\u{1B}\u{FFFE}b", "a\u{FFFD}\u{FFFD}\u{FFFD}b"),
        ("</svg><script/>", "</svg><script/>"),
        ("", ""),
    ] {
        let picture = drawn(title, &disk(1));
        let document = Document::parse(&picture).unwrap();
        let heading = of_class(&document, "heading")[0].text();
        assert_eq!(heading.unwrap_or_default(), shown);
        let names = of_class(&document, "name");
        assert_eq!(names[1].text(), Some("<&>\"'\\x00\\x1B\\xFF]]>"));
    }
    let picture = drawn(&"long ".repeat(100), &disk(0));
    let document = Document::parse(&picture).unwrap();
    let heading = of_class(&document, "heading")[0].text().unwrap();
    assert_eq!(heading.len(), TITLE_ROOM);
}

/// Nothing runs, and nothing is fetched.
#[test]
fn nothing_from_outside() {
    let picture = drawn("TEST", &disk(5));
    let document = Document::parse(&picture).unwrap();
    let known = ["svg", "title", "rect", "text", "path", "g"];
    for node in document.descendants().filter(Node::is_element) {
        assert!(known.contains(&node.tag_name().name()));
        for attribute in node.attributes() {
            assert!(!attribute.value().contains("url("));
            assert!(!attribute.name().contains("href") && !attribute.name().starts_with("on"));
        }
    }
}
