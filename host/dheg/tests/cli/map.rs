//! map: the blocks of a disk as characters, as a picture and as JSON.

use roxmltree::{Document, Node};
use serde_json::{json, Value};

use crate::bench::{Bench, Ended};

/// A bench with a disk that has bad blocks and two files around them, one of two
/// blocks, as `disk.img`, as `disk.hfe` and, of version 3, as `three.hfe`.
fn bench() -> Bench {
    let bench = Bench::new();
    bench.quiet("format disk.img --bad 3,479");
    bench.write("long", &[1; 1473]);
    bench.write("short", b"");
    bench.quiet("put disk.img <&>\" long");
    bench.quiet("put disk.img second short");
    bench.quiet("pack disk.img disk.hfe");
    bench.write("three.hfe", &bench.read("disk.hfe"));
    bench.set_version_3("three.hfe");
    bench
}

/// The first and the last row, those between them, and the counts.
#[test]
fn as_characters() {
    let bench = bench();
    let free = ".".repeat(48);
    let mut expected = format!("  0 MD#x##{}\n", ".".repeat(42));
    for row in 1..9 {
        expected.push_str(&format!("{:3} {free}\n", 48 * row));
    }
    expected.push_str(&format!("432 {}x\n", ".".repeat(47)));
    expected.push_str("blocks: M map 1, D directory 1, # files 3, . free 473, x bad 2\n");
    for image in ["disk.img", "disk.hfe", "three.hfe"] {
        let ended = bench.line(&format!("map {image}"));
        assert_eq!(ended, Ended::new(0, &expected, ""), "{image}");
    }
    bench.write("after", b"");
    bench.quiet("rm disk.img second");
    assert!(bench.line("map disk.img").out.starts_with("  0 MD#x#.."));
}

/// The blocks of a picture: number, class, colour and words.
fn squares<'a>(picture: &'a Document) -> Vec<(usize, &'a str, &'a str, &'a str)> {
    let attribute = |node: &Node<'a, 'a>, name| node.attribute(name).unwrap();
    let blocks = picture
        .descendants()
        .filter(|node| node.attribute("data-block").is_some());
    blocks
        .map(|node| {
            let words = node.first_element_child().and_then(|title| title.text());
            (
                attribute(&node, "data-block").parse().unwrap(),
                attribute(&node, "class"),
                attribute(&node, "fill"),
                words.unwrap(),
            )
        })
        .collect()
}

/// Every block has a shape of its kind, blocks of one file have one colour, and
/// the legend has their names.
#[test]
fn as_a_picture() {
    let bench = bench();
    bench.quiet("map disk.hfe --svg map.svg");
    let text = String::from_utf8(bench.read("map.svg")).unwrap();
    let picture = Document::parse(&text).unwrap();
    let squares = squares(&picture);
    let numbers: Vec<usize> = squares.iter().map(|square| square.0).collect();
    assert_eq!(numbers, (0..480).collect::<Vec<_>>());
    for (block, class, words) in [
        (0, "block map", "block 0: map"),
        (1, "block directory", "block 1: directory, part 1 of 1"),
        (2, "block file", "block 2: <&>\", part 1 of 2"),
        (3, "block bad", "block 3: bad"),
        (4, "block file", "block 4: <&>\", part 2 of 2"),
        (5, "block file", "block 5: second, part 1 of 1"),
        (6, "block free", "block 6: free"),
        (479, "block bad", "block 479: bad"),
    ] {
        assert_eq!((squares[block].1, squares[block].3), (class, words));
    }
    assert_eq!(squares[2].2, squares[4].2);
    assert_ne!(squares[2].2, squares[5].2);
    let texts: Vec<&str> = picture
        .descendants()
        .filter(|node| {
            node.has_tag_name("text") || node.parent().is_some_and(|at| at.has_tag_name("text"))
        })
        .filter_map(|node| node.text())
        .collect();
    for expected in ["disk.hfe", "<&>\"", "second"] {
        assert!(texts.contains(&expected), "{expected} in {texts:?}");
    }
}

#[test]
fn as_json() {
    let bench = bench();
    for (image, form) in [("disk.img", "blocks"), ("three.hfe", "hfe 3")] {
        let ended = bench.line(&format!("map --json {image}"));
        assert_eq!((ended.status, &*ended.err), (Some(0), ""));
        let map: Value = serde_json::from_str(&ended.out).unwrap();
        let blocks = map["blocks"].as_array().unwrap();
        assert_eq!(blocks.len(), 480);
        let first = [
            json!({ "kind": "map" }),
            json!({ "kind": "directory", "part": 0 }),
            json!({ "kind": "file", "file": 0, "part": 0 }),
            json!({ "kind": "bad" }),
            json!({ "kind": "file", "file": 0, "part": 1 }),
            json!({ "kind": "file", "file": 1, "part": 0 }),
            json!({ "kind": "free" }),
        ];
        assert_eq!(blocks[..7], first);
        let files = json!([
            { "name": "<&>\"", "bytes": 1473, "blocks": 2 },
            { "name": "second", "bytes": 0, "blocks": 1 },
        ]);
        assert_eq!(map["files"], files);
        assert_eq!((&map["image"], &map["form"]), (&json!(image), &json!(form)));
        assert_eq!(map.as_object().unwrap().len(), 4);
    }
}

/// A picture and JSON in one call, and files that cannot be written or read.
#[test]
fn both_and_neither() {
    let bench = bench();
    let alone = bench.line("map disk.img --json");
    assert_eq!(bench.line("map disk.img --json --svg map.svg"), alone);
    assert!(bench.read("map.svg").starts_with(b"<?xml"));
    bench.fails(
        "map disk.img --svg none/map.svg",
        3,
        "none/map.svg: No such file or directory (os error 2)",
    );
    let missing = "No such file or directory (os error 2)";
    let line = format!("{}\n", json!({ "image": "disk.img", "failed": missing }));
    let ended = bench.line("map disk.img --json --svg none/map.svg");
    assert_eq!(ended, Ended::new(3, &line, ""));
    bench.fails("map none.img", 3, &format!("none.img: {missing}"));
    let line = format!("{}\n", json!({ "image": "none.img", "failed": missing }));
    assert_eq!(bench.line("map none.img --json"), Ended::new(3, &line, ""));
}

#[test]
fn refused() {
    let bench = bench();
    bench.damage("disk.img", 0);
    let words = "disk header wrong at byte 0";
    let all = format!("disk.img: refused 8: {words}");
    bench.fails("map disk.img --svg map.svg", 1, &all);
    let expected = json!({
        "image": "disk.img",
        "refused": { "number": 8, "places": [0, 0, 0], "words": words },
    });
    let ended = bench.line("map disk.img --json --svg map.svg");
    assert_eq!(ended, Ended::new(1, &format!("{expected}\n"), ""));
    assert!(!bench.path("map.svg").exists());
}
