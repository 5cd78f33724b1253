#!/usr/bin/env python3
"""Holds the papers to the repository: what they name is there.

In every paper (PAPERS):
- a path (crates/.., host/.., examples/.., docs/.., include/..) exists;
- CRATE/File and CRATE/specs/File are crates/CRATE/specs/File.antt, and CRATE/proofs/File is crates/CRATE/proofs/File.antt. CRATE/file and
  CRATE/src/file.rt are crates/CRATE/src/file.rt; if there is none, CRATE/file is the must-fail edit crates/CRATE/must-fail/file.edit. The
  `names` that follow, each after a comma, are defined in that file;
- "believed 3" is a row of the list at the end of docs/MAP.md;
- what is counted in words or digits is counted right: exceptions, examples, wrong edits.
In docs/MAP.md, docs/DEFINITION.md and docs/PROMISES.md (STRICT) besides:
- every other `word` is defined in some crate, or is one of WORDS;
- a code block reads as some definition does;
- an example that is named, and a bench case by its number, exists.
In docs/PROMISES.md the definition of a row is one that the function's contract names. docs/DEFINITION.md leads to every definition file, which
is all of specs/ but the tables of facts, and says how many there are to read. docs/TESTING.md has each crate of the facts run with its
number of wrong edits.

It prints each thing that is not there, with file and line, and exits 1."""
import functools
import glob
import os
import re
import sys

import facts
import mutate
import promises

ROOT = promises.ROOT
STRICT = ["docs/MAP.md", "docs/DEFINITION.md", "docs/PROMISES.md"]
# docs/LANDINGS.md is not among them: it tells what was, and may name what is gone
PAPERS = STRICT + [
    "docs/DECISIONS.md", "docs/REFUSALS.md", "docs/TESTING.md", "docs/PERFORMANCE.md", "docs/ROADMAP.md",
    "README.md", "host/README.md", "examples/README.md",
]
CRATES = sorted(os.listdir(os.path.join(ROOT, "crates")))
# words of the language, of the checker and of the program's output, which are no names of a crate
WORDS = "not get_or rt requires ensures OK REFUSED".split()
NUMBERS = ("zero one two three four five six seven eight nine ten eleven twelve thirteen fourteen fifteen sixteen seventeen eighteen "
           "nineteen twenty").split()
# files of specs/ that state facts of the definition and are no part of it
TABLES = re.compile(r"(Cases|Printed|Facts|Traces|Lib)\.antt$")

PATH = re.compile(r"(?<![\w/.-])(?:crates|host|examples|docs|include|\.ci)/[\w./+-]*[\w+]")
CITED = re.compile(r"(?<![\w/.-])`?(%s)/((?:specs/|proofs/|src/)?)(\w+)(?:\.antt|\.rt)?`?(?![\w/-])" % "|".join(CRATES))
NAMES = re.compile(r"(?:,| and| \.\.)? \(?`([^`/]+)`\)?(?!/)")
WORD = re.compile(r"`([A-Za-z][\w'-]*(?:::\w+)?)`")
DEFINED = re.compile(r"^ {0,4}(?:abbrev |unfoldable )?(?:pub )?(?:(?:record|data) ([^\s:(){}]+)|([^\s:(){}]+)(?= :(?:\s|$)))", re.M)
WRITTEN = re.compile(r"^ *(?:pub )?(?:extern \"C\" )?(?:fn|struct|enum|const) (\w+)")


@functools.lru_cache(None)
def text_of(path):
    with open(os.path.join(ROOT, path)) as f:
        return f.read()


@functools.lru_cache(None)
def names_in(path):
    """What a file of specs/ or proofs/ defines, or one of src/: functions also as Type::name and file::name."""
    if path.endswith(".antt"):
        return {a or b for a, b in DEFINED.findall(text_of(path))}
    found, module, holder, parts = set(), os.path.basename(path)[: -len(".rt")], "", False
    for line in text_of(path).split("\n"):
        if line.startswith("impl "):
            holder = line.split()[1]
        elif line.startswith("}"):
            holder, parts = "", False
        m = WRITTEN.match(line)
        if m:
            parts = parts or bool(re.match(r"(pub )?(struct|enum)", line))
            found |= {m.group(1), (holder or module) + "::" + m.group(1)}
        elif parts:
            found |= set(re.findall(r"^    (?:pub )?(\w+)", line))
    return found


def bare(text):
    """A definition without the words before its name and without indentation."""
    return re.sub(r"^ *(?:abbrev pub |unfoldable pub )?", "", text, flags=re.M)


def cited_file(crate, kind, name):
    """The files that a citation may be for, the first of them that exists, or else None, in front."""
    here = "crates/%s/" % crate
    if kind == "proofs/":
        files = [here + "proofs/%s.antt" % name] + [here + "proofs/%s/%s.antt" % (name, part) for part in ("Answers", "Invariants", "Proof")]
    elif kind == "specs/" or (not kind and name[0].isupper()):
        files = [here + "specs/%s.antt" % name]
    else:
        files = [here + "src/%s.rt" % name] + ([] if kind else [here + "must-fail/%s.edit" % name])
    return [next((f for f in files if os.path.exists(os.path.join(ROOT, f))), None)] + files


def citations(text):
    """Each citation in a text: its match, the file or None, the files that were looked for, the matches of the names that follow it."""
    for m in CITED.finditer(text):
        file, *files = cited_file(*m.groups())
        names, follows = [], NAMES.match(text, m.end())
        while follows:
            names.append(follows)
            follows = NAMES.match(text, follows.end())
        yield m, file, files, names


class Paper:
    def __init__(self, path):
        self.path, self.text, self.wrong, self.seen = path, text_of(path), [], 0
        self.cited = set()
        # code blocks are looked at apart; blanks keep the places of all else
        self.prose = re.sub(r"^```.*?^```", lambda m: re.sub(r"[^\n]", " ", m.group()), self.text, flags=re.M | re.S)

    def expect(self, at, there, what):
        self.seen += 1
        if not there:
            self.wrong.append("%s:%d: %s" % (self.path, self.text.count("\n", 0, at) + 1, what))

    def paths(self):
        for m in PATH.finditer(self.prose):
            if "CRATE" not in m.group():
                path = m.group().rstrip(".")
                self.expect(m.start(), os.path.exists(os.path.join(ROOT, path)), "no file " + path)

    def citations(self):
        """Each citation, with the names that follow it. Answers the places that it has looked at."""
        taken = set()
        for m, file, files, names in citations(self.prose):
            self.expect(m.start(), file, "no file " + " nor ".join(files))
            self.cited.add(file)
            taken |= set(range(m.start(), m.end()))
            for n in names:
                if " " not in n.group(1):
                    taken |= set(range(n.start(), n.end()))
                    if file:
                        self.expect(n.start(), n.group(1) in names_in(file), "no `%s` in %s" % (n.group(1), file))
        return taken

    def words(self, taken, known):
        for m in WORD.finditer(self.prose):
            if m.start() not in taken:
                self.expect(m.start(), m.group(1) in known, "no `%s` anywhere" % m.group(1))

    def blocks(self, definitions):
        for m in re.finditer(r"^```\n(.*?)^```", self.text, re.M | re.S):
            self.expect(m.start(), any(bare(m.group(1)) in d for d in definitions), "no definition reads so")

    def contracts(self):
        """A row's definitions are those of the contracts: each name that it cites, and for each function one of the cited files."""
        for m in re.finditer(r"^\| (\w+) \| (`[^|]*) \| ([^|]*/[^|]*) \|", self.prose, re.M):
            if m.group(1) not in promises.libraries():
                continue
            code = promises.functions(m.group(1))
            words = {f: set(re.split(r"[\s().,;{}]+", code.get(f, ""))) for f in re.findall(r"`([\w:]+)`", m.group(2))}
            cited, defined = set(), set()
            for _, file, _, names in citations(m.group(3)):
                defined |= names_in(file) if file else set()
                cited |= {n.group(1) for n in names if " " not in n.group(1)}
            for name in cited:
                self.expect(m.start(), any(name in w for w in words.values()), "no contract of this row has `%s`" % name)
            for f, w in words.items():
                self.expect(m.start(), w & defined, "the contract of `%s` has no definition of this row" % f)

    def runs(self):
        """Examples by name and bench cases by number."""
        for m in re.finditer(r"\bexamples? ((?:[a-z]+[\w-]*)(?:(?:, | to | and )[a-z]+-[\w-]+)*)", self.prose):
            for name in re.split(r", | to | and ", m.group(1)):
                if "-" in name or m.group().startswith("example "):
                    self.expect(m.start(), os.path.exists(os.path.join(ROOT, "examples", name + ".trace")), "no examples/%s.trace" % name)
        cases = text_of("crates/bench/stdout").count("\n")
        for m in re.finditer(r"bench cases? (\d+)(?: to (\d+))?", self.prose):
            self.expect(m.start(), 0 < int(m.group(1)) <= int(m.group(2) or m.group(1)) <= cases, "%s: there are %d" % (m.group(), cases))

    def beliefs(self):
        last = len(re.findall(r"^\| \d+ \|", text_of("docs/MAP.md").split("## What is believed")[1], re.M))
        for m in re.finditer(r"believed (\d+)", self.prose):
            self.expect(m.start(), 0 < int(m.group(1)) <= last, "%s: docs/MAP.md has %d" % (m.group(), last))

    def facts_run(self, edits):
        """The table of the facts run: each crate, and so many edits of its definitions."""
        start = self.prose.index("## Facts alone")
        rows = [(c, n.replace(",", "")) for c, n in re.findall(r"^\| (\w+) \| ([\d,]+) \|", self.prose[start:], re.M)]
        right = {c: sum(e.crate == c for e in edits) for c in facts.crates() if facts.plain(c)}
        self.expect(start, dict(rows) == {c: str(n) for c, n in dict(right, all=len(edits)).items()}, "the edits of each crate are %s" % right)

    def counts(self, counts):
        for pattern, right in counts:
            for m in re.finditer(pattern, self.prose, re.I):
                word = m.group(1).lower().replace(",", "")
                number = NUMBERS.index(word) if word in NUMBERS else int(word) if word.isdigit() else None
                if number is not None:
                    self.expect(m.start(), number == right, "%s: there are %d" % (" ".join(m.group().split()), right))


def main():
    specs = sorted(os.path.relpath(f, ROOT) for f in glob.glob(os.path.join(ROOT, "crates/*/specs/*.antt")))
    proofs = [os.path.relpath(f, ROOT) for f in glob.glob(os.path.join(ROOT, "crates/*/proofs/*.antt"))]
    code = [os.path.relpath(f, ROOT) for f in glob.glob(os.path.join(ROOT, "crates/*/src/*.rt"))]
    known = set(WORDS) | set(CRATES) | {os.path.basename(f).split(".")[0] for f in specs}
    for f in specs + proofs + code:
        known |= names_in(f)
    definitions = [bare(text_of(f)) for f in specs]
    asking = [c for c in promises.libraries() for contract in promises.functions(c).values() if promises.asks(contract)]
    every, with_code = mutate.edits()
    counts = [
        (r"(\w+) (?:public|inner) functions(?= of| are| have)", len(asking)),
        (r"(\w+) inner crates", len(set(asking))),
        (r"(\w+) exceptions", len(asking)),
        (r"(\w+) small traces", len(glob.glob(os.path.join(ROOT, "examples/*.trace")))),
        (r"([\w,]+) wrong edits of `host/mutations", len(every)),
        (r"makes the ([\w,]+) above its line", with_code),
        (r"([\w,]+) definition\s+files is refused", len(facts.definitions())),
    ]
    papers = [Paper(p) for p in PAPERS]
    for p in papers:
        p.paths()
        taken = p.citations()
        p.counts(counts)
        p.beliefs()
        if p.path in STRICT:
            p.words(taken, known)
            p.blocks(definitions)
            p.runs()
        if p.path == "docs/PROMISES.md":
            p.contracts()
        if p.path == "docs/TESTING.md":
            p.facts_run([e for e in every if facts.definition_of(e)])
        if p.path == "docs/DEFINITION.md":
            order = {file for row in re.findall(r"^\| \d+ \|([^|]*)", p.prose, re.M) for _, file, _, _ in citations(row) if file}
            lines = sum(text_of(f).count("\n") for f in order)
            p.counts([(r"(\d+) files of", len(order)), (r"([\d,]+) lines(?=, about half)", round(lines, -2))])
            for f in specs:
                if not TABLES.search(f):
                    p.expect(0, f in p.cited, "does not lead to " + f)
    for p in papers:
        for w in p.wrong:
            print(w)
    if any(p.wrong for p in papers):
        sys.exit(1)
    print("%d names in %d papers are there" % (sum(p.seen for p in papers), len(papers)))


main()
