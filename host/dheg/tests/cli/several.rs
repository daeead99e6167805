//! check and ls over several images.

use crate::bench::{Bench, Ended};

const MISSING: &str = "dheg: none.img: No such file or directory (os error 2)\n";

/// Two good images and one without a header.
fn three() -> Bench {
    let bench = Bench::new();
    for name in ["a.img", "b.img", "c.img"] {
        bench.quiet(&format!("format {name} --name {name}"));
    }
    bench.damage("b.img", 0);
    bench
}

#[test]
fn one_image_has_no_summary() {
    let bench = three();
    assert_eq!(
        bench.line("check a.img"),
        Ended::new(0, "a.img: sound\n", "")
    );
    assert_eq!(
        bench.line("ls a.img"),
        Ended::new(
            0,
            "a.img: disk \"a.img\", number 0, 0 files, 1434 of 1440 sectors free\n",
            ""
        )
    );
}

#[test]
fn check_goes_on_after_a_refusal() {
    let bench = three();
    assert_eq!(
        bench.line("check a.img b.img c.img"),
        Ended::new(
            1,
            "a.img: sound\nc.img: sound\n3 images: 2 sound, 1 refused, 0 not read\n",
            "dheg: b.img: refused 8: disk header wrong at byte 0\n"
        )
    );
}

#[test]
fn list_goes_on_after_a_refusal() {
    let bench = three();
    bench.write("data", b"data");
    bench.quiet("put a.img one data");
    let expected = "\
a.img: disk \"a.img\", number 0, 1 file, 1431 of 1440 sectors free
       4  1961-01-01 00:00:00  one
c.img: disk \"c.img\", number 0, 0 files, 1434 of 1440 sectors free
3 images: 2 listed, 1 refused, 0 not read
";
    assert_eq!(
        bench.line("ls a.img b.img c.img"),
        Ended::new(
            1,
            expected,
            "dheg: b.img: refused 8: disk header wrong at byte 0\n"
        )
    );
}

#[test]
fn an_unread_image_decides() {
    let bench = three();
    assert_eq!(
        bench.line("check none.img a.img b.img"),
        Ended::new(
            3,
            "a.img: sound\n3 images: 1 sound, 1 refused, 1 not read\n",
            &format!("{MISSING}dheg: b.img: refused 8: disk header wrong at byte 0\n")
        )
    );
    assert_eq!(bench.line("ls none.img"), Ended::new(3, "", MISSING));
}
