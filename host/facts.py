"""The facts run of host/mutate.py: is an edit of a definition refused by a fact alone?

Someone who changes the definition and the code together meets no failing code proof. Only facts stop him: the tables of cases that the
checker computes (the files `*Cases` and `*Printed` of specs/, and those right in proofs/), and the laws. So this run works on copies of the
crates that have no code and no code proofs. Of src/ a copy has the structs and enums that the definitions speak of. Of specs/ it has every
file. For an edit with a line `law`, the copy has that law, and those it cites, in place of the tables; of these it has what the laws cite.

An edit is made in a copy. The edited crate is checked first, then each crate above it, up to the first refusal. A crate is checked with
each table that uses no other table, then with all of them: most edits need no more than the first. An edit is

    held      a table's theorem fails, or the law that the edit names; what failed is named
    misfit    refused for anything else: the edit does not typecheck, or a proof no longer has the shape it needs. It shows nothing
    SURVIVED  every fact still holds
"""
import concurrent.futures
import functools
import hashlib
import os
import re
import shutil
import subprocess
import sys
import tempfile
import time

ROOT = os.path.dirname(os.path.dirname(os.path.abspath(__file__)))
HOME = os.environ.get("MUTATE_HOME", os.path.join(ROOT, "target", "mutate"))
# The copies stand outside the repository, where `rt ci` would find files that no check of it reads.
AWAY = "hawsehole-mutate-" + hashlib.sha256(ROOT.encode()).hexdigest()[:8]
COPIES = os.environ.get("MUTATE_HOME", os.path.join(tempfile.gettempdir(), AWAY))
RESULTS = os.path.join(HOME, "results-facts.json")
SECONDS = 600
# Their definitions, where they have any, are for the code behind the public calls. Each is proved equal to the rules by a law or a contract.
BRIDGES = ("bus", "asking", "taking", "admitting", "packed", "device", "hawsehole_c", "reading", "explain", "bench")
# No definitions of answers: facts for theorems, which need the code's own laws; and what tables share.
OUTSIDE = ("hawsehole/Walk", "rules/Demand3", "rules/Calls", "units/Facts", "hawsehole/Traces")
TABLE = re.compile(r"(Cases|Printed)$")
# What is wrong in a file of the crate that is checked.
ERROR = re.compile(r"^(?:\./)?(\w+)/(\S+?)\.antt:\d+:\d+: error: (.*(?:\n +.*)*)", re.M)
MISFIT = re.compile(r"not in scope|does not parse|cannot be named|no such name|unbound|has no field|has no `|is no name|cannot continue|expected the end|operand is missing")
SHAPE = re.compile(r"no occurrence|could not be computed")
# What was not checked, since it stands on a declaration that another error names.
FOLLOWS = re.compile(r"depends? on `[^`]+`, which was (?:not admitted|rejected)")
# An error of a declaration begins with its name; one with no name is of a text that cannot be read.
NAMED = re.compile(r"`[^`]+`: ")
TYPE = re.compile(r"^(?:#\[derive\([^\n]*\)\]\n)?pub (?:struct|enum) (?:[^\n{]*;|[^\n{]*\{\n(?:.*\n)*?\})\n", re.M)
USE = re.compile(r"^use (\w+)::(?:(\w+)|\{([^{}]*)\});\n", re.M)
LAW = re.compile(r"^use Rattle\.(\w+)\.proofs\.(\w+)", re.M)
SPEC = re.compile(r"^use Rattle\.(\w+)\.specs\.(\w+)", re.M)
HEAD = "#![tactic(auto)]\n"


def read(*parts):
    with open(os.path.join(ROOT, "crates", *parts)) as f:
        return f.read()


def write(text, *parts):
    path = os.path.join(*parts)
    os.makedirs(os.path.dirname(path), exist_ok=True)
    with open(path, "w") as f:
        f.write(text)


def files(crate):
    """The files of a crate's specs/, without `.antt`."""
    return sorted(name[:-5] for name in os.listdir(os.path.join(ROOT, "crates", crate, "specs")) if name.endswith(".antt"))


def plain(crate):
    """The files of a crate's specs/ that are no tables."""
    return [name for name in files(crate) if name != "Lib" and not TABLE.search(name)]


def listed(crate, folder):
    """The modules of a crate's specs/ or proofs/, in its own order."""
    if not os.path.exists(os.path.join(ROOT, "crates", crate, folder, "Lib.antt")):
        return []
    return re.findall(r"^(?:pub )?mod (\w+)", read(crate, folder, "Lib.antt"), re.M)


@functools.lru_cache(maxsize=None)
def law_files():
    """The law files that edits name, as pairs of crate and file: they are no tables."""
    with open(os.path.join(ROOT, "host", "mutations.txt")) as f:
        return set(re.findall(r"^law (\w+)/(\w+) ", f.read(), re.M))


@functools.lru_cache(maxsize=None)
def every_table(crate):
    """The tables of a crate, as FOLDER/File, in its own order."""
    found = ["specs/" + name for name in listed(crate, "specs")]
    found += ["proofs/" + name for name in listed(crate, "proofs") if (crate, name) not in law_files()]
    return [table for table in found if TABLE.search(table) and os.path.exists(os.path.join(ROOT, "crates", crate, table + ".antt"))]


@functools.lru_cache(maxsize=None)
def with_used(crate, table):
    """A table and the tables of its crate that it uses."""
    found, every = [table], every_table(crate)
    for one in found:
        text = read(crate, one + ".antt")
        used = ["specs/" + name for c, name in SPEC.findall(text) if c == crate] + ["proofs/" + name for c, name in LAW.findall(text) if c == crate]
        found += [name for name in dict.fromkeys(used) if name in every and name not in found]
    return [name for name in every if name in found]


def tables(crate):
    """The tables of a crate as they are tried: each that uses no other by itself, then all. What only a table of proofs/ is stated over goes
    with it."""
    every = every_table(crate)
    own = [t for t in every if not any(t in with_used(crate, p) for p in every if p != t and p.startswith("proofs/"))]
    alone = [used for used in (with_used(crate, t) for t in own) if sum(t in own for t in used) == 1]
    return alone if alone == [every] else alone + [every]


def crates():
    """The crates of the run, the lowest first."""
    with open(os.path.join(ROOT, "crates.txt")) as f:
        names = [line.split(":")[0].split()[0] for line in f if ":" in line and not line.startswith("#")]
    # Tables alone stand right above what they hold: they refuse most edits.
    names.insert(names.index("rules") + 1, names.pop(names.index("facts")))
    return [c for c in names if c not in BRIDGES]


@functools.lru_cache(maxsize=None)
def definitions():
    """The definition files, as CRATE/File."""
    every = [c + "/" + name for c in crates() for name in plain(c)]
    return [d for d in every if d not in OUTSIDE]


def definition_of(e):
    """The definition file that an edit is in, or nothing."""
    crate, folder, name = e.file.split("/")[0], e.file.split("/")[1], e.file.split("/")[-1][:-5]
    return "%s/%s" % (crate, name) if folder == "specs" and "%s/%s" % (crate, name) in definitions() else ""


def types(crate):
    """The structs and enums of a crate, and the `use` lines that they need."""
    if not os.path.exists(os.path.join(ROOT, "crates", crate, "src", "lib.rt")):
        return HEAD
    code = read(crate, "src", "lib.rt")
    declared = "".join(TYPE.findall(code))
    uses = ""
    for under, name, names in USE.findall(code):
        needed = [n for n in re.findall(r"\w+", name or names) if re.search(r"\b%s\b" % n, declared)]
        uses += "use %s::{%s};\n" % (under, ", ".join(needed)) if needed else ""
    return HEAD + uses + declared


def stands_on(crate, texts):
    """The crates that these texts of a crate use."""
    named = set(re.findall(r"^use (?:Rattle\.)?(\w+)", "".join(texts), re.M))
    return [c for c in crates() if c in named and c != crate]


def with_cited(laws):
    """These law files and all that they use, as pairs of crate and file."""
    laws = list(dict.fromkeys(laws))
    for crate, name in laws:
        laws += [used for used in dict.fromkeys(LAW.findall(read(crate, "proofs", name + ".antt"))) if used not in laws]
    return laws


def laws_for(every):
    """The law files that the edits name and all that those use."""
    return with_cited(tuple(e.law.split()[0].split("/")) for e in every if e.law)


@functools.lru_cache(maxsize=None)
def lemmas(crate):
    """The files of proofs/ that tables of proofs/ use and that are no tables, of this crate."""
    tabled = [(c, t.split("/")[1]) for c in crates() for t in every_table(c) if t.startswith("proofs/")]
    return [name for c, name in with_cited(tabled) if c == crate and (c, name) not in tabled]


def tables_for(laws):
    """The tables of specs/ that these laws use, and those that those use, as pairs of crate and file."""
    cited = [used for crate, name in laws for used in SPEC.findall(read(crate, "proofs", name + ".antt")) if TABLE.search(used[1])]
    found = list(dict.fromkeys(cited))
    for crate, name in found:
        found += [used for used in SPEC.findall(read(crate, "specs", name + ".antt")) if TABLE.search(used[1]) and used not in found]
    return found


def kept(crate, laws):
    """The tables of a crate that a copy with laws has, in the crate's own order."""
    cited = tables_for(laws)
    return [table for table in every_table(crate) if (crate, table.split("/")[1]) in cited and table.startswith("specs/")]


def put(place, crate, folder, names):
    """Writes these files of a crate to the copy, and no others."""
    shutil.rmtree(os.path.join(place, "crates", crate, folder), ignore_errors=True)
    for name in names:
        write(read(crate, folder, name + ".antt"), place, "crates", crate, folder, name + ".antt")
    if names:
        write("".join("pub mod %s\n" % name for name in names), place, "crates", crate, folder, "Lib.antt")


def put_facts(place, crate, some, laws):
    """Writes a crate's definitions to the copy, with these tables, or these tables and laws, and nothing else. Answers what it wrote."""
    inside = {folder: [t.split("/")[1] for t in some if t.startswith(folder)] for folder in ("specs/", "proofs/")}
    inside["specs/"] = plain(crate) + inside["specs/"]
    inside["proofs/"] = [name for c, name in laws if c == crate] if laws else lemmas(crate) + inside["proofs/"]
    for folder, names in inside.items():
        put(place, crate, folder[:-1], names)
    return [read(crate, folder + name + ".antt") for folder, names in inside.items() for name in names]


def stripped(place, laws):
    """Writes the crates to the copy, without code; with laws, they stand there in place of the tables. What was proved in the copy stays,
    and is used where it fits still."""
    folder = os.path.join(place, "crates")
    for c in os.listdir(folder) if os.path.isdir(folder) else []:
        if c not in crates():
            shutil.rmtree(os.path.join(folder, c))
    order = ""
    for c in crates():
        shutil.rmtree(os.path.join(folder, c, "src"), ignore_errors=True)
        write(types(c), place, "crates", c, "src", "lib.rt")
        texts = put_facts(place, c, kept(c, laws) if laws else every_table(c), laws)
        order += "%s: %s\n" % (c, " ".join(stands_on(c, [types(c)] + texts)))
    write(order, place, "crates.txt")


def above(place, crate):
    """The crate, then those that stand on it, in order."""
    found = [crate]
    with open(os.path.join(place, "crates.txt")) as f:
        for line in f:
            name, _, under = line.partition(":")
            if name != crate and set(under.split()) & set(found):
                found.append(name)
    return found


def checked(place, crate, is_last):
    """The check of a crate: its status, and what it said. The last check of a crate makes it ready for those above."""
    command = ["rt", "lib" if is_last else "check", "--jobs", "1"]
    where = os.path.join(place, "crates", crate)
    done = subprocess.run(command, cwd=where, stdout=subprocess.PIPE, stderr=subprocess.STDOUT, timeout=SECONDS)
    return done.returncode, done.stdout.decode(errors="replace")


def link(one, other):
    """What was proved is linked, within a file system: a check replaces such a file and changes none."""
    try:
        if one.endswith(".oantt"):
            os.link(one, other)
            return
    except OSError:
        pass
    shutil.copy2(one, other)


class Base:
    """The copy with no edit."""

    def __init__(self, name, laws):
        self.place, self.laws = os.path.join(COPIES, name), laws

    def prove(self):
        stripped(self.place, self.laws)
        for c in crates():
            status, text = checked(self.place, c, True)
            if status:
                sys.exit("the definitions as they are do not hold (%s, %s):\n%s" % (self.place, c, text))


class Copy:
    """A job's own copy of a base, for one edit at a time."""

    def __init__(self, base, number):
        self.base, self.place, self.made = base, "%s-%d" % (base.place, number), False

    def make(self):
        if not self.made:
            shutil.rmtree(self.place, ignore_errors=True)
            shutil.copytree(self.base.place, self.place, copy_function=link)
            self.made = True

    def put_back(self, names):
        """These crates as they were before an edit, with what was proved of them."""
        for c in names:
            shutil.rmtree(os.path.join(self.place, "crates", c), ignore_errors=True)
            shutil.copytree(os.path.join(self.base.place, "crates", c), os.path.join(self.place, "crates", c), copy_function=link)


def copies(todo, jobs):
    """For each job the two copies that it may need: with tables, and with laws. Both are proved once, side by side, and then copied."""
    tabled, lawful = Base("facts", []), Base("laws", laws_for(todo))
    wanted = [b for b, laws in ((tabled, False), (lawful, True)) if any(bool(e.law) == laws for e in todo)]
    with concurrent.futures.ThreadPoolExecutor(jobs) as pool:
        for proved in [pool.submit(b.prove) for b in wanted]:
            proved.result()
    return [(Copy(tabled, i + 1), Copy(lawful, i + 1)) for i in range(jobs)]


def judged(e, crate, text):
    """held or misfit, and what refused."""
    errors = [found for found in ERROR.findall(text) if not FOLLOWS.search(found[2].split("\n")[0])]
    if not errors or not re.search(r"^logic=not-proved", text, re.M):
        return "misfit", "no error was found in what the check said: " + text.strip().split("\n")[-1][:200]
    told = []
    for folder, name, message in errors:
        line = message.split("\n")[0]
        told.append("%s/%s %s" % (crate, name, (re.findall(r"`([^` ]+)`", line) or ["?"])[0]))
        fact = folder == "proofs" and not SHAPE.search(message) if e.law else "%s/%s" % (folder, name) in every_table(crate)
        if not fact or MISFIT.search(line) or not NAMED.match(line):
            return "misfit", told[-1] + ": " + line[:200]
    if e.law and e.law not in told:
        return "misfit", "another law: " + ", ".join(told)
    return "held", ", ".join(dict.fromkeys(told))


def refused(e, place, laws, done):
    """The verdict on the edit: crate after crate from its own on, each with one table at a time, then with all; or with these laws alone."""
    for c in above(place, e.crate):
        done.append(c)
        groups = [kept(c, laws)] if e.law else tables(c)
        for some in groups:
            put_facts(place, c, some, laws if e.law else [])
            if c == e.crate:
                write(e.applied(read(e.file)), place, "crates", e.file)
            status, said = checked(place, c, some is groups[-1])
            if status:
                return judged(e, c, said)
    return "SURVIVED", ""


def tried(e, pair):
    """Makes the edit in the copy, has it judged, and puts everything back."""
    start, done, copy = time.time(), [], pair[1 if e.law else 0]
    copy.make()
    try:
        verdict, where = refused(e, copy.place, laws_for([e]), done)
    except subprocess.TimeoutExpired:
        verdict, where = "misfit", "no verdict in %d seconds" % SECONDS
    copy.put_back(done)
    return {"verdict": verdict, "where": where, "seconds": round(time.time() - start, 1), "edit": "%s: %s" % (e.file, e.why)}


@functools.lru_cache(maxsize=None)
def sum_of(laws):
    """All that a verdict hangs on but the edit."""
    texts = [types(c) + "".join(name + read(c, "specs", name + ".antt") for name in files(c)) for c in crates()]
    texts += [read(c, "proofs", name + ".antt") for c in crates() for name in lemmas(c)]
    texts += [read(c, table + ".antt") for c in crates() for table in every_table(c) if table.startswith("proofs/")]
    texts += [read(crate, "proofs", name + ".antt") for crate, name in laws]
    return hashlib.sha256("\0".join(texts).encode()).hexdigest()


def key_of(e):
    sums = sum_of(tuple(sorted(laws_for([e]))))
    return hashlib.sha256(repr((e.file, e.old, e.new, e.nth, e.law, sums)).encode()).hexdigest()[:32]


def one_of_each(every):
    """The first edit of each definition file; the files that have none."""
    first = {}
    for e in every:
        first.setdefault(definition_of(e), e)
    return [first[d] for d in definitions() if d in first], [d for d in definitions() if d not in first]
