//! The files of the repository, and what those with definitions and laws declare.

use std::fs;
use std::path::Path;

/// The crates whose definitions state the rules.
const RULE_CRATES: [&str; 3] = ["cells", "sector_rules", "file_rules"];

/// Files that name others, or theorems of others.
const INDEXES: [&str; 3] = ["Lib.antt", "Laws.antt", "Theorems.antt"];

/// A file of the repository: its path from the root, and its lines.
pub struct Source {
    pub path: String,
    pub lines: Vec<String>,
}

impl Source {
    /// Whether it is below a folder of this name.
    pub fn is_below(&self, folder: &str) -> bool {
        let folders = self
            .path
            .rsplit_once('/')
            .map_or("", |(folders, _)| folders);
        folders.split('/').any(|name| name == folder)
    }

    pub fn has_ending(&self, endings: &[&str]) -> bool {
        let ending = self.path.rsplit_once('.').map_or("", |(_, ending)| ending);
        endings.contains(&ending)
    }

    /// Whether it holds definitions or statements: it is below `specs` and not
    /// below a folder of laws.
    pub fn has_definitions(&self) -> bool {
        self.has_ending(&["antt"]) && self.is_below("specs") && !self.is_below("Laws")
    }

    /// Whether it holds definitions, statements or laws: it is below `specs`, or
    /// below `proofs` and not the proof of one function.
    pub fn has_laws(&self) -> bool {
        let name = self.path.rsplit('/').next().unwrap_or_default();
        let of_function = ["Answers.antt", "Invariants.antt", "Proof.antt"].contains(&name);
        let laws = self.is_below("specs") || self.is_below("proofs") && !of_function;
        self.has_ending(&["antt"]) && laws
    }

    pub fn is_of_rule_crate(&self) -> bool {
        RULE_CRATES
            .iter()
            .any(|name| self.path.starts_with(&format!("crates/{name}/")))
    }

    pub fn is_index(&self) -> bool {
        let name = self.path.rsplit('/').next().unwrap_or_default();
        INDEXES.contains(&name)
    }

    /// The comment directly above a line, from its last line up.
    pub fn comment_above(&self, line: usize) -> impl Iterator<Item = &str> {
        let above = self.lines[..line].iter().rev();
        above
            .map(|text| text.trim())
            .take_while(|text| is_comment(text))
    }

    /// A line and what is said of it.
    pub fn at(&self, line: usize, what: &str) -> String {
        format!("{}:{}: {what}", self.path, line + 1)
    }
}

/// All files below these folders, and these files, in the order of their
/// paths. What is built and what is hidden is left out.
pub fn sources(paths: &[&str]) -> Vec<Source> {
    let root = Path::new(env!("CARGO_MANIFEST_DIR")).join("../..");
    let mut found = Vec::new();
    for path in paths {
        let before = found.len();
        collect(&root, path, &mut found);
        assert!(found.len() > before, "nothing at {path}");
    }
    found.sort_by(|a, b| a.path.cmp(&b.path));
    found
}

/// Adds the files of a path, itself or below it.
fn collect(root: &Path, path: &str, found: &mut Vec<Source>) {
    let full = root.join(path);
    if full.is_dir() {
        for entry in fs::read_dir(&full).expect("a folder") {
            let name = entry.expect("an entry").file_name();
            let name = name.to_str().expect("a name of text");
            if !name.starts_with('.') && name != "target" && name != "out" {
                collect(root, &format!("{path}/{name}"), found);
            }
        }
    } else if let Ok(text) = fs::read_to_string(&full) {
        found.push(Source {
            path: path.to_owned(),
            lines: text.lines().map(str::to_owned).collect(),
        });
    }
}

/// A comment: of a definition or a proof, or of code.
pub fn is_comment(text: &str) -> bool {
    text.starts_with("--") || text.starts_with("//")
}

/// What a line of a file with definitions or laws declares for others.
#[derive(Clone, Copy, PartialEq)]
pub enum Declared {
    /// A definition, or a type.
    Definition,
    /// A law or a theorem.
    Law,
    /// A field of a record.
    Field,
}

/// All public names of a file, each with its line and what it is.
fn declarations(source: &Source) -> Vec<(usize, &str, Declared)> {
    let mut found = Vec::new();
    // How far the heads of the records are indented that a line is within.
    let mut records: Vec<usize> = Vec::new();
    for (line, text) in source.lines.iter().enumerate() {
        let trimmed = text.trim_start();
        if trimmed.is_empty() || is_comment(trimmed) {
            continue;
        }
        let indent = text.len() - trimmed.len();
        records.retain(|&outer| outer < indent);
        if let Some((name, declared)) = declaration(trimmed, !records.is_empty()) {
            found.push((line, name, declared));
        }
        if trimmed.starts_with("pub record ") || trimmed.starts_with("record ") {
            records.push(indent);
        }
    }
    found
}

/// The name that a line declares for others.
fn declaration(line: &str, in_record: bool) -> Option<(&str, Declared)> {
    let mut words = line.split_whitespace();
    match (words.next()?, words.next()?) {
        ("abbrev" | "unfoldable", "pub") => {
            let name = words.next().filter(|&name| name != "use")?;
            Some((name, Declared::Definition))
        }
        ("pub", "record" | "data") => Some((words.next()?, Declared::Definition)),
        ("pub", "mod" | "use" | "module") => None,
        ("pub", name) if in_record => Some((name, Declared::Field)),
        ("pub", name) => Some((name, Declared::Law)),
        _ => None,
    }
}

/// The public names of one kind in a file, each with its line.
pub fn declared(source: &Source, kind: Declared) -> impl Iterator<Item = (usize, &str)> {
    let all = declarations(source).into_iter();
    all.filter(move |&(_, _, own)| own == kind)
        .map(|(line, name, _)| (line, name))
}

/// Fails with these messages, if there are any.
pub fn assert_none(what: &str, failures: &[String]) {
    let count = failures.len();
    assert!(count == 0, "{what}: {count}\n{}", failures.join("\n"));
}
