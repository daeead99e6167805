#!/usr/bin/env python3
"""Compares what two trees of this repository declare, by text without spaces: definitions with their bodies, and the
statements of laws and theorems, wherever they stand in specs/ or proofs/.

usage: compare_statements.py OLD NEW     lists what moved, changed, is gone or is new; proofs of functions are passed over
"""
import glob
import os
import re
import sys

OF_FUNCTIONS = ("Proof.antt", "Answers.antt", "Invariants.antt", "Lib.antt")
HEAD = re.compile(
    r"(\s*)((?:pub |abbrev |unfoldable |data |record )*)([^\s(){}:]+)"
    r"((?: [({][^(){}]*(?:[({][^(){}]*[)}][^(){}]*)*[)}])*) :(?=\s|$)"
)
LOCAL = re.compile(r"\s*(let|λ|in|rw)\b")
WITH_BODY = ("abbrev", "unfoldable", "data", "record")


def indent(line):
    return len(line) - len(line.lstrip())


def code_lines(path):
    """The lines of a file without comments."""
    with open(path, encoding="utf-8") as f:
        lines = f.read().split("\n")
    return [re.split(r"\s--\s", line)[0] for line in lines if not line.strip().startswith("--")]


def clause_of(name, line):
    return re.match(r"\s*" + re.escape(name) + r"(\s|$)", line)


def statement_end(lines, start, name, depth):
    """The line after a statement: its clauses, an `unfolding` line or a blank one end it."""
    end = start + 1
    while end < len(lines) and lines[end].strip() and indent(lines[end]) > depth:
        if re.match(r"\s*unfolding\b", lines[end]) or clause_of(name, lines[end]):
            break
        end += 1
    return end


def body_of(lines, start, name, depth):
    """The lines of a definition's body."""
    body = []
    for line in lines[start:]:
        inside = indent(line) > depth or clause_of(name, line)
        if line.strip() and not inside:
            break
        if line.strip():
            body.append(line.strip())
    return body


def module_head(lines, start):
    """A module's parameters, up to its `where`, and the line after them."""
    text, end = lines[start].strip(), start + 1
    while "where" not in text:
        text += " " + lines[end].strip()
        end += 1
    return text, end


def declared_in(path):
    """All declarations of a file: name and text."""
    lines = code_lines(path)
    found, i = [], 0
    while i < len(lines):
        head = HEAD.match(lines[i])
        if re.match(r"\s*module _ ", lines[i]):
            text, i = module_head(lines, i)
            found.append(("module", text))
        elif head and not LOCAL.match(lines[i]):
            depth, kind, name = len(head.group(1)), head.group(2), head.group(3)
            end = statement_end(lines, i, name, depth)
            text = [line.strip() for line in lines[i:end]]
            if any(word in kind for word in WITH_BODY):
                text += body_of(lines, end, name, depth)
            found.append((name, " ".join(text)))
            i = end
        else:
            i += 1
    return found


def declared(root):
    """The texts of all names: by crate, file below specs/ or proofs/, and name."""
    found = {}
    for path in sorted(glob.glob(f"{root}/crates/*/**/*.antt", recursive=True)):
        if "/out/" in path or os.path.basename(path) in OF_FUNCTIONS:
            continue
        parts = os.path.relpath(path, root).split("/")
        for name, text in declared_in(path):
            found.setdefault((parts[1], "/".join(parts[3:]), name), []).append(re.sub(r"\s+", "", text))
    return found


def main(old, new):
    before, after = declared(old), declared(new)
    homes = {}
    for (crate, file, name), texts in after.items():
        homes.setdefault((crate, name), []).append((file, texts))
    same = 0
    for (crate, file, name), texts in before.items():
        if after.get((crate, file, name)) == texts:
            same += 1
            continue
        there = [home for home, others in homes.get((crate, name), []) if others == texts]
        if there:
            print(f"moved: {crate} {file} {name}: to {there[0]}")
        elif (crate, file, name) in after:
            print(f"changed: {crate} {file} {name}\n  - {texts}\n  + {after[(crate, file, name)]}")
        else:
            print(f"gone: {crate} {file} {name}: {texts[0][:150]}")
    known = {(crate, name) for crate, _, name in before}
    for crate, file, name in after:
        if (crate, name) not in known:
            print(f"new: {crate} {file} {name}")
    print(f"{same} of {len(before)} the same in the same file")


if __name__ == "__main__":
    if len(sys.argv) != 3:
        sys.exit(__doc__)
    main(sys.argv[1], sys.argv[2])
