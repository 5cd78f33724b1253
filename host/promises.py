#!/usr/bin/env python3
"""Holds docs/PROMISES.md to the code: each public function of each library has its row, and each row its function; a function with a
`requires` is on the list of exceptions, and nothing else is."""
import os
import re
import sys

ROOT = os.path.dirname(os.path.dirname(os.path.abspath(__file__)))
FUNCTION = re.compile(r"^( *)(pub )?(?:extern \"C\" )?fn (\w+)")


def functions(crate):
    """The public functions of a library as name -> its contract: the lines between its head and its body."""
    src = os.path.join(ROOT, "crates", crate, "src")
    with open(os.path.join(src, "lib.rt")) as f:
        public = re.findall(r"^pub mod (\w+);", f.read(), re.M)
    found = {}
    for file in sorted(os.listdir(src)):
        module = file[: -len(".rt")]
        holder, name = "", ""
        with open(os.path.join(src, file)) as f:
            for line in f:
                if line.startswith("impl "):
                    holder = line.split()[1]
                elif line.startswith("}"):
                    holder = name = ""
                m = FUNCTION.match(line)
                if m:
                    name = ""
                    if m.group(2) and (holder or module == "lib" or module in public):
                        place = holder or ("" if module == "lib" else module)
                        name = place + "::" + m.group(3) if place else m.group(3)
                        found[name] = ""
                elif line.strip() == "{":
                    name = ""
                elif name:
                    found[name] += line
    return found


def asks(contract):
    """A contract has a `requires`, with a name or without one."""
    return bool(re.search(r"\brequires (\w+ )?\{", contract))


def libraries():
    """The crates that are no programs."""
    crates = os.path.join(ROOT, "crates")
    return [c for c in sorted(os.listdir(crates)) if os.path.exists(os.path.join(crates, c, "src", "lib.rt"))]


def rows(text):
    """The names in the first two columns of tables, as (crate, name)."""
    found = []
    for line in text.split("\n"):
        cells = [c.strip() for c in line.split("|")]
        if len(cells) > 3 and re.fullmatch(r"\w+", cells[1]) and "`" in cells[2]:
            found += [(cells[1], name) for name in re.findall(r"`([\w:]+)`", cells[2])]
    return found


def main():
    with open(os.path.join(ROOT, "docs", "PROMISES.md")) as f:
        text = f.read()
    exceptions, promises = text.split("Within what it asks for", 1)
    code = {(c, n): asks(contract) for c in libraries() for n, contract in functions(c).items()}
    wrong = []
    listed, excepted = rows(promises), rows(exceptions)
    wrong += ["no row: %s %s" % k for k in sorted(code) if k not in listed]
    wrong += ["no such function: %s %s" % k for k in listed + excepted if k not in code]
    wrong += ["twice: %s %s" % k for k in sorted(set(listed)) if listed.count(k) > 1]
    wrong += ["no exception listed: %s %s" % k for k in sorted(code) if code[k] and k not in excepted]
    wrong += ["asks for nothing: %s %s" % k for k in excepted if k in code and not code[k]]
    for w in wrong:
        print(w)
    print("%d public functions, %d with a requires; docs/PROMISES.md %s" % (len(code), sum(code.values()), "differs" if wrong else "has each"))
    sys.exit(1 if wrong else 0)


if __name__ == "__main__":
    main()
