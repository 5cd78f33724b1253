#!/usr/bin/env python3
"""Brings the repository's own definitions and lemmas to today's spelling: words in snake case. Run once, after port.py, at the top.

A name is the repository's own where a file of specs/, or a lemma file right in proofs/, declares it, or where it is a field of a record
of such a file, or the spelling with dashes of a function of src/, as old proof files write it. Each stands in snake case afterwards, in
specs/, proofs/, the clauses of src/ and the edits of must-fail/. Comments change between backticks only. Two names that would fall
together stop the run before anything is written.
"""
import collections
import os
import re
import sys

MODIFIERS = re.compile(r"^(?:(?:unfoldable|abbrev|pub|ruleset|record|data|deriving)\s+)*")
SKIPPED = ("use ", "infix", "unfolding", "mod ", "pub mod", "open ", "pub use")
TOKEN = re.compile(r"[A-Za-z0-9_'⊑\-]+")
TICKED = re.compile(r"`[^`]*`")
QUOTED = re.compile(r'("[^"]*")')
# a comment of src/, a text, or a character
APART = re.compile(r'(//[^\n]*|"(?:\\.|[^"\\])*"|\'(?:\\.|[^\'\\])\')', re.S)
SUFFIXES = ("", "-spec", "-reads")


def files(ending):
    for folder, below, names in os.walk("crates"):
        below[:] = sorted(d for d in below if d not in ("out", "target"))
        for name in sorted(names):
            if name.endswith(ending):
                yield os.path.join(folder, name)


def text_of(path):
    with open(path, encoding="utf-8") as f:
        return f.read()


def is_library(path):
    parts = path.split(os.sep)
    return parts[2] == "specs" or (parts[2] == "proofs" and len(parts) == 4)


def declared(path):
    """The names that a file of definitions or lemmas declares, those within others too, and the fields of its records."""
    inside = False
    for line in text_of(path).splitlines():
        if not line.strip():
            continue
        if line[0] in " \t":
            field = re.match(r"^\s+(?:pub )?([^\s:(){}]+)\s*:", line)
            if inside and field:
                yield field.group(1)
            lemma = re.match(r"^\s+(?:unfoldable |abbrev |pub )*([^\s:(){}]+) :(?: |$)", line)
            if lemma and "returns" not in lemma.group(1):
                yield lemma.group(1)
            continue
        if line.startswith(("--", ")", "]", "}") + SKIPPED):
            continue
        inside = bool(re.match(r"^(?:abbrev |pub |unfoldable )*(?:record|data)\b", line))
        name = re.match(r"[^\s:(){}]+", line[MODIFIERS.match(line).end():])
        if name:
            yield name.group(0)


def functions():
    for path in files(".rt"):
        for name in re.findall(r"\bfn (\w+)", text_of(path)):
            yield name


def table():
    """Old name to new name."""
    own = {name for path in files(".antt") if is_library(path) for name in declared(path)}
    new = collections.defaultdict(set)
    for name in own:
        new[name.replace("-", "_")].add(name)
    fallen = {k: v for k, v in new.items() if len(v) > 1}
    if fallen:
        sys.exit(f"names fall together: {fallen}")
    names = {name: name.replace("-", "_") for name in own if "-" in name}
    for fn in functions():
        for suffix in SUFFIXES:
            old = fn.replace("_", "-") + suffix
            if "-" in old and old not in names:
                names[old] = fn + suffix.replace("-", "_")
    return names


def respelled(text, names):
    """The text with its names turned; what stands between double quotes is printed, or quoted from a paper, and stays."""
    parts = QUOTED.split(text)
    return "".join(part if part.startswith('"') else TOKEN.sub(lambda m: names.get(m.group(0), m.group(0)), part) for part in parts)


def commented(comment, names):
    """A comment, with the names between backticks turned."""
    return TICKED.sub(lambda m: respelled(m.group(0), names), comment)


def turned(line, names, comment):
    """A line of antt or of an edit with its names turned."""
    at = line.find(comment) if line.lstrip().startswith(comment.strip()) or f" {comment}" in line else -1
    if at < 0:
        return respelled(line, names)
    return respelled(line[:at], names) + commented(line[at:], names)


def turned_source(text, names):
    """A file of src/ with its names turned. Texts go over lines, so it is read as a whole."""
    parts = APART.split(text)
    for at, part in enumerate(parts):
        if at % 2 == 0:
            parts[at] = TOKEN.sub(lambda m: names.get(m.group(0), m.group(0)), part)
        elif part.startswith("//"):
            parts[at] = commented(part, names)
    return "".join(parts)


def main():
    names = table()
    # port.py leaves the edits alone: there its own respellings are due too.
    dashed = {name.replace("_", "-"): name for path in files(".antt") if is_library(path) for name in declared(path) if "-" not in name}
    for ending, comment in ((".antt", "-- "), (".rt", "// "), (".edit", "# ")):
        names = {**dashed, **names} if ending == ".edit" else names
        for path in files(ending):
            old = text_of(path)
            if ending == ".rt":
                new = turned_source(old, names)
            else:
                new = "".join(turned(line, names, comment) for line in old.splitlines(keepends=True))
            if new != old:
                with open(path, "w", encoding="utf-8") as f:
                    f.write(new)
    print(f"{len(names)} names")


if __name__ == "__main__":
    main()
