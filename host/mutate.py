#!/usr/bin/env python3
"""The mutation run: the wrong edits of host/mutations.txt, one at a time, and whether the check refuses each.

    python3 host/mutate.py                   every edit that has no result yet
        --only CRATE  --from N  --to N       a part of them; N is an edit's number in the list
        --jobs 1|2                           how many at a time (1)
        --again                              also those that have a result
    python3 host/mutate.py --list            the edits with their results; each must fit the files as they are
    python3 host/mutate.py --report          counts, and each edit that was not refused for a fact
    python3 host/mutate.py --facts ..        the same of the edits of definitions, with no code there: host/facts.py says how
    python3 host/mutate.py --facts --each    one edit of each definition file, the first in the list; fails where one is not held

An edit is made in a copy of the repository (in MUTATE_HOME, or else in a folder for temporary files), with what is proved already. The
edited crate is then checked by `rt check` in its folder, and a program by `rt run` besides, on its `stdin`, held to its `stdout`; `upto NAME`
in an edit has the edited crate and all up to NAME proved, crate after crate. An edit is

    killed    a proof, a table of cases or a run fails; the first error is shown
    misfit    refused, but only because a proof file no longer fits the code's shape, or the text makes no sense: it shows nothing
    SURVIVED  the check passes: a wrong program or definition that nothing shuts out, or an edit that changes nothing

Results are kept in target/mutate/results.json under the edit and the crate's files (results-facts.json: the edit and all definitions and
tables), so a run goes on where it was broken off, and what was changed is tried again.
"""
import argparse
import concurrent.futures
import hashlib
import json
import os
import queue
import re
import shutil
import subprocess
import sys
import threading
import time

import facts

HERE = os.path.dirname(os.path.abspath(__file__))
ROOT = os.path.dirname(HERE)
HOME = facts.HOME
RESULTS = os.path.join(HOME, "results.json")
SECONDS = 1800
MISFIT = re.compile(facts.MISFIT.pattern + r"|error\[")
SHAPE = facts.SHAPE
# what a check says first of what it refuses: an error, or a goal of a function that it does not prove
ERROR = re.compile(r"^(?:note: )?(?:\./)?((?:src|specs|proofs)/\S+?:\d+):\d+: (?:error|it is not proved)|^error\[", re.M)
SOUGHT = re.compile(r"^fn (\S+): (?:no proof|not proved)", re.M)


class Edit:
    def __init__(self, number, block):
        lines = block.strip("\n").split("\n")
        self.number, self.file, self.nth, self.upto, self.law = number, lines[0], 0, "", ""
        self.once = True
        for line in lines[1:]:
            word, _, rest = line.partition(" ")
            if word in ("old:", "new:", "why:"):
                setattr(self, word[:-1], rest.replace("\\n", "\n"))
            elif word == "nth":
                self.nth, self.once = int(rest) - 1, False
            elif word in ("upto", "law"):
                setattr(self, word, rest)
            else:
                sys.exit("host/mutations.txt: what is this? " + line)
        self.crate = self.file.split("/")[0]

    def applied(self, text):
        """The text with the edit, or none where it does not fit."""
        parts = text.split(self.old)
        if len(parts) < 2 + self.nth or (self.once and len(parts) > 2):
            return None
        return self.old.join(parts[: self.nth + 1]) + self.new + self.old.join(parts[self.nth + 1 :])


def edits():
    """All edits, and how many of them come before those that are for the facts run only."""
    with open(os.path.join(HERE, "mutations.txt")) as f:
        both, only_facts = f.read().split("## facts run only")
    blocks = [b for b in (both + only_facts).split("\n\n") if b.strip() and not b.lstrip().startswith("#")]
    every = [Edit(i + 1, block) for i, block in enumerate(blocks)]
    return every, sum(1 for b in both.split("\n\n") if b.strip() and not b.lstrip().startswith("#"))


def path_of(e, root=ROOT):
    """The edited file, in the repository or in a copy of it."""
    return os.path.join(root, "crates", e.file)


def key_of(e):
    """The edit, and the files of its crate as they are now."""
    sums = hashlib.sha256(repr((e.file, e.old, e.new, e.nth, e.upto)).encode())
    for folder, folders, files in os.walk(os.path.join(ROOT, "crates", e.crate)):
        folders[:] = sorted(name for name in folders if name != "out")
        for name in sorted(files):
            with open(os.path.join(folder, name), "rb") as f:
                sums.update(name.encode() + b"\0" + f.read())
    return sums.hexdigest()[:32]


class Results:
    """What each edit's run gave; `how` is this module or `facts`."""

    def __init__(self, how):
        self.lock, self.how, self.all = threading.Lock(), how, {}
        if os.path.exists(how.RESULTS):
            with open(how.RESULTS) as f:
                self.all = json.load(f)

    def get(self, e):
        return self.all.get(self.how.key_of(e))

    def verdict(self, e):
        return (self.get(e) or {"verdict": "not tried"})["verdict"]

    def put(self, e, result):
        with self.lock:
            self.all[self.how.key_of(e)] = result
            with open(self.how.RESULTS + ".new", "w") as f:
                json.dump(self.all, f, indent=1)
            os.replace(self.how.RESULTS + ".new", self.how.RESULTS)


def fresh(place):
    """A copy of the repository with all that is proved."""
    shutil.rmtree(place, ignore_errors=True)
    os.makedirs(place)
    shutil.copytree(os.path.join(ROOT, "crates"), os.path.join(place, "crates"), copy_function=facts.link)
    shutil.copy(os.path.join(ROOT, "crates.txt"), place)
    return place


def copies(todo, jobs):
    return [fresh(os.path.join(facts.COPIES, "copy-%d" % (i + 1))) for i in range(jobs)]


def program(crate):
    return os.path.exists(os.path.join(ROOT, "crates", crate, "src", "main.rt"))


def under():
    """Each crate of crates.txt with those that it names, in its order."""
    with open(os.path.join(ROOT, "crates.txt")) as f:
        lines = [line.partition(":") for line in f if ":" in line and not line.startswith("#")]
    return {name.split()[0]: names.split() for name, _, names in lines}


def checked_crates(e):
    """The crates that are checked for an edit, the edited one first."""
    if not e.upto:
        return [e.crate]
    found, below = [e.crate], under()
    for name, names in below.items():
        if set(names) & set(found) and (name == e.upto or name in below[e.upto]):
            found.append(name)
    return found


def differs(crate, place, seconds):
    """How a proved program's run differs from what it must write, or nothing."""
    folder = os.path.join(place, "crates", crate)

    def given(name):
        path = os.path.join(folder, name)
        if not os.path.exists(path):
            return b""
        with open(path, "rb") as f:
            return f.read()

    words = ["rt", "run", "--jobs", "1", "--"] + given("args").decode().splitlines()
    done = subprocess.run(words, cwd=folder, input=given("stdin"), stdout=subprocess.PIPE, stderr=subprocess.PIPE, timeout=seconds)
    if done.stdout != given("stdout"):
        return "what the program wrote is not its stdout"
    wanted = int(given("status").decode() or 0)
    return "" if done.returncode == wanted else "the program ended with %d, and not with %d" % (done.returncode, wanted)


def judged(crate, text):
    """killed or misfit, and the first error, of a check that refused."""
    first, sought = ERROR.search(text), SOUGHT.search(text)
    if not re.search(r"^logic=not-proved", text, re.M):
        return "misfit", "no verdict: " + (first.group(0) if first else text.strip().split("\n")[-1])[:200]
    if not first:
        # A function with no proof file: the checker looks for the proof itself, and finds none of what is no longer true.
        return ("killed", sought.group(1) + ": no proof is found") if sought else ("misfit", "no error was found in what the check said")
    message = re.match(r".*(\n  .*)*", text[first.start() :]).group(0)
    line = message.split("\n")[0]
    place = first.group(1) or ""
    named = SOUGHT.findall(text, first.end())[:1] if line.startswith("note: ") else re.findall(r"`[^` ]+`", line)[:1]
    tables = sorted(set(re.findall(r"^(?:\./)?(?:specs|proofs)/\w+\.antt:\S+ error: (`[^`]+`): expected type `T ", text, re.M)))
    # where a table's theorem fails, a fact refuses the edit, whatever else is said; of one the checker may say that what it computed is not shown
    table = place.startswith("specs/") or place.partition(".antt")[0] in facts.every_table(crate)
    shape = not table and SHAPE.search(message)
    where = " ".join(["%s/%s" % (crate, place)] + named) + (", tables " + " ".join(tables) if tables else "")
    said = line.partition(".antt:")[2].partition(": error: ")[2]
    unread = said and not facts.NAMED.match(said)
    return "misfit" if not tables and (shape or unread or MISFIT.search(line)) else "killed", where


def verdict_on(e, place):
    """The verdict on an edit that is made in the copy."""
    end = time.time() + SECONDS
    crates = checked_crates(e)
    for crate in crates:
        words = ["rt", "check" if crate == crates[-1] else "lib", "--jobs", "1"]
        where = os.path.join(place, "crates", crate)
        done = subprocess.run(words, cwd=where, stdout=subprocess.PIPE, stderr=subprocess.STDOUT, timeout=end - time.time())
        if done.returncode:
            return judged(crate, done.stdout.decode(errors="replace"))
    wrong = differs(e.crate, place, end - time.time()) if program(e.crate) else ""
    return ("killed", "%s: %s" % (e.crate, wrong)) if wrong else ("SURVIVED", "")


def tried(e, place):
    """Makes the edit in the copy, checks, and puts the file back."""
    with open(path_of(e)) as f:
        text = f.read()
    with open(path_of(e, place), "w") as f:
        f.write(e.applied(text))
    start = time.time()
    try:
        verdict, where = verdict_on(e, place)
    except subprocess.TimeoutExpired:
        verdict, where = "misfit", "no verdict in %d seconds" % SECONDS
    with open(path_of(e, place), "w") as f:
        f.write(text)
    # what a passed check, or one of several crates, has left there is not what is proved
    if verdict == "SURVIVED" or e.upto:
        fresh(place)
    return {"verdict": verdict, "where": where, "seconds": round(time.time() - start, 1), "edit": "%s: %s" % (e.file, e.why)}


def shown(e, r):
    return "%3d %-8s %6.1f s  %s: %s\n        %s" % (e.number, r["verdict"], r["seconds"], e.file, e.why, r["where"])


def run(todo, jobs, results):
    places = queue.Queue()
    for place in results.how.copies(todo, jobs):
        places.put(place)

    def one(e):
        place = places.get()
        try:
            r = results.how.tried(e, place)
        finally:
            places.put(place)
        results.put(e, r)
        print(shown(e, r), flush=True)

    with concurrent.futures.ThreadPoolExecutor(jobs) as pool:
        list(pool.map(one, todo))


def counted(all_edits, results):
    counts = {}
    for e in all_edits:
        verdict = results.verdict(e)
        counts[verdict] = counts.get(verdict, 0) + 1
    return "%d edits: " % len(all_edits) + ", ".join("%d %s" % (n, verdict) for verdict, n in sorted(counts.items()))


def unfit(all_edits):
    """The edits that do not fit the files as they are."""
    wrong = []
    for e in all_edits:
        with open(path_of(e)) as f:
            if e.applied(f.read()) is None:
                wrong.append(e)
    return wrong


def asked():
    p = argparse.ArgumentParser(description="The mutation run.")
    p.add_argument("--only", metavar="CRATE")
    p.add_argument("--from", dest="first", type=int, default=1, metavar="N")
    p.add_argument("--to", dest="last", type=int, default=1 << 30, metavar="N")
    p.add_argument("--jobs", type=int, choices=(1, 2), default=1)
    for word in ("again", "list", "report", "facts", "each"):
        p.add_argument("--" + word, action="store_true")
    return p.parse_args()


def each(part, a, results):
    """One edit of each definition file: all are refused, or 1."""
    first, without = facts.one_of_each(part)
    run([e for e in first if a.again or not results.get(e)], a.jobs, results)
    wrong = [e for e in first if results.verdict(e) != "held"]
    for e in wrong:
        print("not held: %d %s: %s" % (e.number, e.file, e.why))
    for d in without:
        print("no edit of %s" % d)
    if wrong or without:
        return 1
    print("%d definition files: an edit of each is refused by a fact" % len(first))
    return 0


def main():
    a = asked()
    os.makedirs(HOME, exist_ok=True)
    every, both = edits()
    wrong = unfit(every)
    for e in wrong:
        print("does not fit: %d %s: %s" % (e.number, e.file, e.old))
    if wrong:
        return 2
    results = Results(facts if a.facts else sys.modules[__name__])
    part = [e for e in every if a.first <= e.number <= a.last and a.only in (None, e.crate)]
    part = [e for e in part if (facts.definition_of(e) if a.facts else e.number <= both)]
    if a.facts and a.each:
        return each(part, a, results)
    if a.list or a.report:
        for e in part:
            r = results.get(e) or {"verdict": "-", "seconds": 0, "where": ""}
            if a.list or r["verdict"] in ("misfit", "SURVIVED"):
                print(shown(e, r))
    else:
        run([e for e in part if a.again or not results.get(e)], a.jobs, results)
    print(counted(part, results))
    return 1 if any(results.verdict(e) == "SURVIVED" for e in part) else 0


if __name__ == "__main__":
    sys.exit(main())
