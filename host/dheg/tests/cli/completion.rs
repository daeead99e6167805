//! Scripts that complete command lines.

use crate::bench::{tell, Bench};
use crate::help::COMMANDS;

#[test]
fn every_command_is_there() {
    let bench = Bench::new();
    for shell in ["bash", "zsh", "fish"] {
        let script = bench.line(&format!("completion {shell}"));
        assert_eq!((script.status, &*script.err), (Some(0), ""), "{shell}");
        let is_word = |letter: char| letter.is_ascii_alphanumeric() || "-_".contains(letter);
        let words: Vec<&str> = script.out.split(|letter| !is_word(letter)).collect();
        for command in COMMANDS {
            assert!(words.contains(&command), "{shell}: {command}");
        }
        for option in ["to", "json", "quiet", "all", "files", "name", "date"] {
            let long = format!("--{option}");
            assert!(
                words.contains(&&*long) || words.contains(&option),
                "{shell}: {option}"
            );
        }
    }
}

/// The shell itself reads the script, and completes the name of a command.
#[test]
fn bash_takes_it() {
    let bench = Bench::new();
    bench.write("script", bench.line("completion bash").out.as_bytes());
    for (line, out) in [
        ("bash -n script", ""),
        (
            "bash -c '. ./script; COMP_WORDS=(dheg unp); COMP_CWORD=1; \
             _dheg dheg unp dheg; echo \"${COMPREPLY[@]}\"'",
            "unpack\n",
        ),
    ] {
        let mut shell = bench.shell();
        let ended = shell.arg(line).output().unwrap();
        if ended.status.code() == Some(127) {
            tell("completion: bash is not installed, NOT RUN");
            return;
        }
        assert_eq!(ended.status.code(), Some(0), "{line}");
        let err = String::from_utf8_lossy(&ended.stderr);
        assert_eq!(err, "", "{line}");
        assert_eq!(String::from_utf8_lossy(&ended.stdout), out, "{line}");
    }
}
