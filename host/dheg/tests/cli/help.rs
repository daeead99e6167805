//! Help for the tool and for each command.

use crate::bench::{Bench, Ended};

pub const COMMANDS: [&str; 16] = [
    "unpack",
    "pack",
    "edit",
    "poke",
    "format",
    "check",
    "ls",
    "map",
    "get",
    "put",
    "cp",
    "rm",
    "batch",
    "place",
    "completion",
    "man",
];

#[test]
fn the_tool() {
    let bench = Bench::new();
    let help = bench.line("--help");
    assert_eq!((help.status, help.err.as_str()), (Some(0), ""));
    let about = "QL double-density disks in HFE images and block images\n";
    assert!(help.out.starts_with(about), "{}", help.out);
    assert!(help.out.contains("\nUsage: dheg "));
    for command in COMMANDS {
        assert!(help.out.contains(&format!("\n  {command} ")), "{command}");
    }
    assert!(help.out.contains("\nExit status: 0 done, 1 refused, 2 "));
    assert!(help.out.contains("\nExample: dheg edit "));
    assert_eq!(bench.line("-h"), help);
    let version = concat!("dheg ", env!("CARGO_PKG_VERSION"), "\n");
    assert_eq!(bench.line("--version"), Ended::new(0, version, ""));
}

#[test]
fn each_command() {
    let bench = Bench::new();
    let overview = bench.line("--help").out;
    for command in COMMANDS {
        let help = bench.line(&format!("{command} --help"));
        assert_eq!((help.status, help.err.as_str()), (Some(0), ""));
        // The first line is the one that the overview has.
        let about = help.out.lines().next().unwrap();
        let mut lines = overview.lines().map(str::trim_start);
        let line = lines.find(|line| line.starts_with(&format!("{command} ")));
        assert!(line.unwrap().ends_with(&format!("  {about}")), "{command}");
        assert!(help.out.contains(&format!("\nUsage: dheg {command}")));
        assert!(help.out.contains(&format!("\nExample: dheg {command}")));
        let long = help.out.lines().find(|line| line.len() > 90);
        assert_eq!(long, None);
        let blank = help.out.lines().find(|line| line.ends_with(' '));
        assert_eq!(blank, None, "{command}");
        let words = match command {
            "place" => "1 -h 2",
            "completion" => "bash -h",
            "man" => "-h",
            _ => "a -h b",
        };
        assert_eq!(bench.line(&format!("{command} {words}")), help);
    }
}

/// That case does not count in names of files is said by the overview and by
/// get, put and rm.
#[test]
fn case_in_names() {
    let bench = Bench::new();
    let overview = bench.line("--help").out;
    assert!(overview.contains("Reel_one and REEL_ONE\nare one name."));
    assert!(overview.contains("keeps the spelling"));
    for command in ["get", "put", "rm"] {
        let help = bench.line(&format!("{command} --help")).out;
        assert!(help.contains("A to Z"), "{command}");
    }
}

#[test]
fn examples_work() {
    let bench = Bench::new();
    for (name, text) in [
        ("letter.txt", "Dear client"),
        ("boot.bas", "10 PRINT"),
        ("notes.txt", "notes"),
    ] {
        bench.write(name, text.as_bytes());
    }
    bench.write("sector.bin", &[0x51; 512]);
    bench.write("cues.txt", b"# cues\nput cue_1 notes.txt\nrm cue_1\n");
    bench.quiet("format games.img");
    bench.quiet("put games.img boot letter.txt");
    bench.quiet("pack games.img old.hfe");
    for command in ["format", "put", "get", "ls", "rm", "check", "pack"] {
        run_example(&bench, command);
    }
    for command in ["batch", "unpack", "edit", "poke", "place"] {
        run_example(&bench, command);
    }
    for command in ["cp", "map", "completion", "man"] {
        run_example(&bench, command);
    }
}

/// Runs the example of a command's help as a shell would.
fn run_example(bench: &Bench, command: &str) {
    let help = bench.line(&format!("{command} --help")).out;
    let (_, example) = help.split_once("\nExample: dheg ").unwrap();
    let example = example.trim_end().replace("*.img", "games.img work.img");
    // Quotes stand only around whole arguments.
    let mut args = Vec::new();
    for (at, part) in example.split('\'').enumerate() {
        match at % 2 {
            0 => args.extend(part.split_whitespace()),
            _ => args.push(part),
        }
    }
    let ended = bench.dheg(&args);
    assert_eq!(
        (ended.status, ended.err.as_str()),
        (Some(0), ""),
        "{example}"
    );
}
