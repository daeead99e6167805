#!/usr/bin/env python3
"""Spells the definitions and lemmas of this repository in snake case: firstSome-next becomes first_some_next.

usage: respell.py [--check]     at the top of the repository, after the spelling of the libraries was turned

Types, facts and modules keep their capitals. A lemma that would get the name of a definition gets `_lem`
after it. What turns: the code of specs/ and proofs/, the clauses and ghost lines of src/, the lines of
must-fail/*.edit, and in comments and documents what stands in code spans or italics. Functions of src/,
exported names, strings, inputs and outputs keep theirs.
"""
import collections
import glob
import re
import sys

DECLARED = re.compile(
    r"\s*(?:(?:pub|abbrev|unfoldable|data|record)\s+)*([^\s(){}:.,;\"@]+)(?: \{[^{}\n]*\})* :\s"
)
TOKEN = re.compile(r"[^\s(){}.;,@\"«»`*|]+")
RUST_ITEM = re.compile(r"\b(?:fn|const|static|struct|enum|type|trait|mod) (\w+)")


def snake(name):
    if name[0].isupper():
        return name
    name = re.sub(r"(?<=[a-z0-9])([A-Z])", lambda m: "_" + m.group(1).lower(), name)
    return name.replace("-", "_").replace("′", "'")


class Spelled(dict):
    """The table, and beside it the names that the libraries' scripts had turned in code alone: a comment or an
    edit may have such a name in its old spelling yet."""

    def __init__(self, turned, declared):
        super().__init__(turned)
        self.now = set(turned.values()) | {n for n in declared if n not in turned}

    def late(self, token):
        new = snake(token) if token and re.search(r"[a-z0-9][A-Z]|-", token) and not token[0].isupper() else None
        return new if new in self.now else None


def law_files():
    for path in sorted(glob.glob("crates/*/**/*.antt", recursive=True)):
        if "/out/" not in path and not path.endswith("/Proof.antt"):
            yield path


def table():
    declared = collections.OrderedDict()
    for path in law_files():
        with open(path, encoding="utf-8") as f:
            for line in f:
                m = DECLARED.match(line)
                if m and not line.lstrip().startswith("--"):
                    declared.setdefault(m.group(1), []).append(path)
    by_new = collections.defaultdict(list)
    for name in declared:
        by_new[snake(name)].append(name)
    turned = {}
    for new, olds in by_new.items():
        for old in olds:
            # The definition keeps the name: it had capitals, or else underscores.
            rank = 0 if re.search(r"[a-z0-9][A-Z]", old) else 2 if "-" in old else 1
            first = min(0 if re.search(r"[a-z0-9][A-Z]", o) else 2 if "-" in o else 1 for o in olds)
            to = new if rank == first else new + "_lem"
            if to != old:
                turned[old] = to
    return declared, turned


def turn_code(text, turned, fields, late=False):
    def one(m):
        token = m.group(0)
        new = turned.get(token) or (turned.late(token) if late else None)
        if new is None:
            return token
        before = text[: m.start()]
        if before.endswith("."):
            head = re.search(r"([^\s(){};,.]+)\.$", before)
            by_module = head and head.group(1)[0].isupper()
            if not by_module and token not in fields and not late:
                return token
        return new

    return TOKEN.sub(one, text)


def turn_comment(text, turned, fields, kebab_everywhere=False):
    """In code spans and italics every name; elsewhere names in camel case."""

    def span(m):
        return m.group(1) + turn_code(m.group(2), turned, fields, late=True) + m.group(3)

    text = re.sub(r"(`)([^`\n]+)(`)", span, text)
    text = re.sub(r"(?<![\w*])(\*)([^*\n ]+)(\*)(?![\w*])", span, text)
    camel = {k: v for k, v in turned.items() if kebab_everywhere or ("-" not in k and re.search(r"[a-z0-9][A-Z]", k))}

    def bare(m):
        return camel.get(m.group(0)) or (kebab_everywhere and turned.late(m.group(0))) or m.group(0)

    return re.sub(r"(?<![\w`./-])[A-Za-z][\w'-]*(?![\w/]|\.\w)", bare, text)


def split_comment(line, mark):
    """The code and the comment of a line; a mark in a string is none."""
    quoted = False
    for i, ch in enumerate(line):
        if ch == '"':
            quoted = not quoted
        elif not quoted and line.startswith(mark, i) and (i == 0 or line[i - 1].isspace()):
            return line[:i], line[i:]
    return line, ""


def turn_lines(text, mark, turned, fields):
    out = []
    for line in text.splitlines(keepends=True):
        code, comment = split_comment(line, mark)
        parts = re.split(r'("(?:[^"\\]|\\.)*")', code)
        code = "".join(p if i % 2 else turn_code(p, turned, fields) for i, p in enumerate(parts))
        out.append(code + (turn_comment(comment, turned, fields) if comment else ""))
    return "".join(out)


def turn_edit(text, turned, fields):
    out = []
    for line in text.splitlines(keepends=True):
        m = re.match(r"(old|new): (.*)", line, re.S)
        if m:
            out.append(m.group(1) + ": " + turn_code(m.group(2), turned, fields, late=True))
        elif line.startswith("#"):
            out.append(turn_comment(line, turned, fields, kebab_everywhere=True))
        else:
            out.append(line)
    return "".join(out)


def record_fields():
    fields = set()
    for path in law_files():
        inside = False
        with open(path, encoding="utf-8") as f:
            for line in f:
                if re.match(r"\s*(?:(?:pub|abbrev)\s+)*record\s", line):
                    inside = True
                elif inside and line.strip() and not line.startswith(" "):
                    inside = False
                m = DECLARED.match(line)
                if inside and m and line.startswith("  "):
                    fields.add(m.group(1))
            # fields of record types written in place
        with open(path, encoding="utf-8") as f:
            for m in re.finditer(r"record \{([^{}]*:[^{}]*)\}", f.read()):
                fields.update(re.findall(r"([^\s;{}:]+) :", m.group(1)))
    return fields


def main(check):
    declared, turned = table()
    turned = Spelled(turned, declared)
    fields = record_fields()
    rust = set()
    for path in glob.glob("crates/*/src/**/*.rt", recursive=True):
        with open(path, encoding="utf-8") as f:
            rust.update(RUST_ITEM.findall(f.read()))
    jobs = []
    for path in sorted(glob.glob("crates/*/**/*", recursive=True)):
        if "/out/" in path:
            continue
        if path.endswith(".antt"):
            jobs.append((path, lambda t: turn_lines(t, "--", turned, fields)))
        elif path.endswith(".rt"):
            # A name with underscores alone is a function's there, and stays.
            ours = Spelled({k: v for k, v in turned.items() if "-" in k or re.search(r"[a-z0-9][A-Z]", k)}, declared)
            jobs.append((path, lambda t, ours=ours: turn_lines(t, "//", ours, fields)))
        elif path.endswith(".edit"):
            jobs.append((path, lambda t: turn_edit(t, turned, fields)))
    for path in ["README.md"] + sorted(glob.glob("docs/**/*.md", recursive=True)):
        if path != "docs/PORT.md":
            jobs.append((path, lambda t: turn_comment(t, turned, fields)))
    changed = 0
    for path, turn in jobs:
        with open(path, encoding="utf-8") as f:
            text = f.read()
        new = turn(text)
        had = set(TOKEN.findall(text))
        for old in sorted(had & set(turned)):
            if turned[old] in had and path.endswith((".antt", ".rt")):
                print(f"look: {path}: {old} becomes {turned[old]}, which stands there already")
        if new != text:
            changed += 1
            if not check:
                with open(path, "w", encoding="utf-8") as f:
                    f.write(new)
    for old, new in sorted(turned.items()):
        if new.endswith("_lem"):
            print(f"lemma: {old} becomes {new}")
    print(f"{len(turned)} names of {len(declared)} turned, {changed} files changed")


if __name__ == "__main__":
    main("--check" in sys.argv[1:])
