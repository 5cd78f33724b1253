#!/usr/bin/env python3
"""Brings the edits of host/mutations.txt to today's spelling. Run once, at the top, after port.py and tools/port_names.py; docs/PORT.md says
which edits were changed by hand afterwards, so it is not to be run again.

BEFORE is the last commit before the sources were respelled, and its list fits its files but for the code that MOVED, which LANDED has where
the list says. TURNED is the commit in which the files are respelled.
Each edit of BEFORE's list is respelled by the rules below. Nothing is written unless for each edit

- the respelled place stands in today's file as often as the old one stood in the old file, and in TURNED's file;
- made in TURNED's file, the edit gives what respelling the whole wrong file of BEFORE gives. Of code, the lines that it takes and puts are the
  old ones, in the same function.
"""
import copy
import difflib
import os
import re
import subprocess
import sys

sys.path.insert(0, os.path.join(os.path.dirname(os.path.dirname(os.path.abspath(__file__))), "host"))
import mutate

LANDED, BEFORE, TURNED = "864002f", "f2656bf", "27437a2"
LIST = "host/mutations.txt"
# what was in these files is in one of those today; the functions of a type went up to the type's crate
MOVED = {
    "bursts/src/databus.rt": ["bus/src/databus.rt", "bursts/src/quiet.rt", "bursts/src/cuts.rt", "bursts/src/beats.rt"],
    "bursts/src/reads.rt": ["bus/src/reads.rt", "bursts/src/quiet.rt", "bursts/src/cuts.rt", "bursts/src/beats.rt"],
}
NAME = re.compile(r"[A-Za-z0-9_'⊑]*[A-Za-z_'⊑][A-Za-z0-9_']*(?:-[A-Za-z0-9_']+)+")
WORDS = (("getD", "get_or"), ("bitXor", "bit_xor"), ("the-variants", "TheVariants"))
PIECE = re.compile(r"\s+|[()]|[^\s()]+")
# what ends an application
ENDS = re.compile(r"=|\+|-|\*|\^|%|≤|<|≡|&&|\|\||∷|\+\+|→|⇒|⊎|×|⊑|;|,|in|let|\{|\}|:|where|record|gives|are|λ")


def show(commit, path):
    done = subprocess.run(["git", "show", "%s:%s" % (commit, path)], cwd=mutate.ROOT, capture_output=True, text=True)
    return done.stdout if done.returncode == 0 else None


def today(path):
    with open(os.path.join(mutate.ROOT, path)) as f:
        return f.read()


def tight(text):
    """Projections as they stand today: `f x .p` is `(f x).p`, and a projection needs no brackets of its own."""
    out = []
    for piece in PIECE.findall(text):
        kind = "blank" if piece.isspace() else "open" if piece == "(" else "end"
        projected = re.match(r"\.([a-z0-9_]\w*)(.*)$", piece, re.S)
        if piece == ")":
            at = max((i for i, o in enumerate(out) if o[0] == "open"), default=-1)
            if at >= 0:
                inner = [o for o in out[at + 1 :] if o[0] != "blank"]
                bare = len(inner) == 1 and inner[0][0] == "projection"
                body = "".join(o[1] for o in out[at + 1 :])
                out[at:] = [("projection", body) if bare else ("atom", "(" + body + ")")]
                continue
        elif projected and not piece.startswith(".."):
            at = len(out)
            while at and out[at - 1][0] in ("atom", "projection", "blank"):
                at -= 1
            while at < len(out) and out[at][0] == "blank":
                at += 1
            body = "".join(o[1] for o in out[at:]).rstrip()
            atoms = [o for o in out[at:] if o[0] != "blank"]
            if atoms:
                alone = len(atoms) == 1 and (atoms[0][0] == "projection" or re.fullmatch(r"[\w']+", body) or body.startswith("("))
                out[at:] = [("projection", "%s.%s" % (body if alone else "(" + body + ")", projected[1])), ("end", projected[2])]
                out = [o for o in out if o[1]]
                continue
            kind = "atom"
        elif kind == "end" and not ENDS.fullmatch(piece):
            ended = re.match(r"(.*[\w'\]])([;,]+)$", piece)
            if ended:
                out += [("atom", ended[1]), ("end", ended[2])]
                continue
            kind = "atom"
        out.append((kind, piece))
    return "".join(o[1] for o in out)


def respelled(text):
    """A text of specs/ in today's spelling."""
    text = text.replace("Rattle·", "Rattle.")
    for old, new in WORDS:
        text = re.sub(r"(?<![\w'-])%s(?![\w'-])" % old, new, text)
    return tight(NAME.sub(lambda m: m.group().replace("-", "_"), text.replace("′", "'")))


def layout_free(text):
    """A file of specs/ without imports, comments and layout."""
    lines = [line for line in text.split("\n") if not line.lstrip().startswith("--")]
    text = re.sub(r"^use [^;{]*\{[^}]*\}$", "", "\n".join(lines), flags=re.M)
    return "".join(re.sub(r"(?<![\w'])_(?=[^\w\s]+_)|(?<=[^\w\s])_(?![\w'])|◌", "", text).split())


def changed(old, new):
    """The lines that an edit takes and puts, without layout, each with the function that it is in."""
    found = []
    for texts, sign in ((old, "- "), (new, "+ ")):
        holder = ""
        mine = {i for tag, a, b, c, d in difflib.SequenceMatcher(None, old.split("\n"), new.split("\n"), False).get_opcodes()
                if tag != "equal" for i in (range(a, b) if sign == "- " else range(c, d))}
        for i, line in enumerate(texts.split("\n")):
            named = re.search(r"\bfn (\w+)", line)
            holder = named[1] if named else holder
            if i in mine:
                found.append((sign, holder, "".join(line.split())))
    return found


def wrong_with(e, was, file):
    """What is wrong with a respelled edit, or nothing."""
    then = show(TURNED, "crates/" + file)
    found = []
    if e.applied(today("crates/" + file)) is None:
        found.append("does not fit today's file")
    if then is None or e.applied(then) is None:
        return found + ["does not fit the turned file"]
    old = show(LANDED if was.file in MOVED else BEFORE, "crates/" + was.file)
    bad = was.applied(old)
    if bad is None:
        return found + ["the old edit did not fit"]
    if file.endswith(".antt"):
        if layout_free(respelled(old)) != layout_free(then) or layout_free(respelled(bad)) != layout_free(e.applied(then)):
            found.append("is another edit")
    elif changed(old, bad) != changed(then, e.applied(then)):
        found.append("is another edit: %s" % (changed(then, e.applied(then)),))
    return found


def turned(was):
    """The respelled edit, in the one file of today that has its place, where there is one."""
    found = []
    for file in MOVED.get(was.file, [was.file]):
        e = copy.copy(was)
        e.file = file
        if file.endswith(".antt"):
            e.old, e.new = respelled(was.old), respelled(was.new)
        found.append(e)
    fitting = [e for e in found if e.applied(today("crates/" + e.file)) is not None]
    return fitting[0] if len(fitting) == 1 else found[0]


def block_of(e, was, lines):
    """The edit's block, with the respelled texts."""
    said = {"old:": e.old.replace("\n", "\\n"), "new:": e.new.replace("\n", "\\n"), "law": was.law.replace("-", "_")}
    rest = [line if line.split(" ")[0] not in said else "%s %s" % (line.split(" ")[0], said[line.split(" ")[0]]) for line in lines[1:]]
    return "\n".join([e.file] + rest)


def told(text):
    """Comments, with the names between backticks respelled."""
    return re.sub(r"`[^`]*`", lambda m: respelled(m.group()), text)


def main():
    blocks, number, failed = show(BEFORE, LIST).split("\n\n"), 0, 0
    for at, block in enumerate(blocks):
        found = re.search(r"^\w+/\w+/\w+\.(rt|antt)\n(.+\n?)+", block, re.M)
        if not found:
            blocks[at] = told(block)
            continue
        number += 1
        text = found.group().rstrip("\n")
        was = mutate.Edit(number, text)
        e = turned(was)
        wrong = wrong_with(e, was, e.file)
        if wrong or e.old == e.new:
            failed += 1
            print("%d %s: %s\n  old %r\n   -> %r\n  new %r\n   -> %r" % (number, e.file, "; ".join(wrong), was.old, e.old, was.new, e.new))
        blocks[at] = told(block[: found.start()]) + block_of(e, was, text.split("\n")) + block[found.start() + len(text) :]
    print("%d edits, %d wrong" % (number, failed))
    if not failed:
        with open(os.path.join(mutate.ROOT, LIST), "w") as f:
            f.write("\n\n".join(blocks))
    return 1 if failed else 0


if __name__ == "__main__":
    sys.exit(main())
