#!/usr/bin/env python3
"""Small traces to try the program on, and what document 01 says that it prints.

    python3 host/examples.py            writes examples/ and the program's crates/judge/stdin and stdout
    python3 host/examples.py --check    compares these files with what it would write
    python3 host/examples.py --run      runs ./judge on each example and compares all that it prints

Every line to be printed is written by hand from document 01's sentences; no judge is run for it.
"""
import os
import subprocess
import sys

from bench_cases import A10, NOP, WRITE, active, all_banks, header, nop, nops, precharge, read, rec, refresh, terminate
from bench_cases import up, up_active, write

ROOT = os.path.join(os.path.dirname(os.path.abspath(__file__)), "..")
EXAMPLES = []


def example(name, shows, rs, *lines, period=7500, **head):
    """A trace of these records; grade -133 and the period of the bench cases unless said."""
    head.setdefault("count", len(rs))
    EXAMPLES.append((name, shows, header(period, **head) + b"".join(rs), "".join(line + "\n" for line in lines)))


def beats(kind, record, clock, columns, lanes="ff"):
    """The lines of beats on records and clocks one after another, in bank 1, row 7."""
    return ["%s %d %d 1 7 %d %s" % (kind, record + i, clock + i, c, lanes) for i, c in enumerate(columns)]


# The records of up_active() are 0 to 4; one with 2 skipped clocks after them is record 5 on clock 13,360.


def clean():
    example(
        "printed",
        "the printed case of document 01",
        up_active(0x31, write(2, 1, 5), nop(0, 0xF0), precharge(1, 1)),
        "W 5 13360 1 7 5 ff",
        "W 6 13361 1 7 4 0f",
        "OK 8",
        bank=1,
        row=7,
    )
    example("no-records", "zero records is a clean trace", [], "OK 0")
    example(
        "read",
        "a READ of length 4 with CL 3: beats on r + 3 to r + 6",
        up_active(0x32, read(2, 1, 0), *nops(7)),
        *beats("R", 8, 13363, [0, 1, 2, 3]),
        "OK 13",
    )
    example(
        "read-interleaved",
        "length 8 interleaved from column 13 (P6)",
        up_active(0x3B, read(2, 1, 13), *nops(11)),
        *beats("R", 8, 13363, [13, 12, 15, 14, 9, 8, 11, 10]),
        "OK 17",
    )
    example(
        "read-terminated",
        "BURST TERMINATE at r + 2 leaves beats on r + 3 and r + 4 (P10)",
        up_active(0x32, read(2, 1, 0), nop(0, 0), terminate(0), *nops(4)),
        *beats("R", 8, 13363, [0, 1]),
        "OK 12",
    )
    example(
        "read-13e",
        "grade -13E: CL 2, and a READ 2 clocks after its ACTIVE (P4, P5)",
        up_active(0x21, read(1, 1, 0), *nops(3)),
        *beats("R", 7, 13361, [0, 1]),
        "OK 9",
        grade=1,
    )
    example(
        "write-full-page",
        "full page from column 2,046 wraps at 2,048 columns (P7)",
        up_active(0x37, write(2, 1, 3070), *nops(2)),
        *beats("W", 5, 13360, [2046, 2047, 0]),
        "OK 8",
    )
    example(
        "write-masked",
        "a beat with no lane stored is reported with lanes 00, and starts no tWR",
        up_active(0x30, rec(5, WRITE, 1, 0, 255), precharge(0, 1)),
        *beats("W", 5, 13363, [0], "00"),
        "OK 7",
    )


def of_header():
    one = [all_banks(13334)]
    example("refused-1", "1: the count says two records, the file has one", one, "REFUSED 0 1 0", count=2)
    example("refused-2", "2: version 2", one, "REFUSED 0 2 0", version=2)
    example("refused-3", "3: a period of 999 ps", one, "REFUSED 0 3 0", period=999)
    example("refused-4", "4: grade 3", one, "REFUSED 0 4 0", grade=3)
    example("refused-5", "5: a zero bit of the header set", one, "REFUSED 0 5 0", zeros=1)


def of_records():
    example("refused-10", "10: a zero bit of the record set", up(0x31, rec(0, NOP, zeros=1)), "REFUSED 4 10 0")
    example("refused-11", "11: CKE LOW", up(0x31, rec(0, NOP, cke=0)), "REFUSED 4 11 0")
    example(
        "refused-12",
        "12: 1,042 clocks after the last refresh (P11)",
        [all_banks(13334), refresh(2), refresh(8), nop(1041, 255)],
        "REFUSED 3 12 0",
    )
    example("refused-14", "14: PRECHARGE ALL on clock 13,333, before 100,000,000 ps (P1)", [all_banks(13333)], "REFUSED 0 14 0")
    example("refused-15", "15: READ of a closed bank", up(0x31, read(5, 1, 0)), "REFUSED 4 15 0")
    example("refused-17", "17: mode word 0034 (P4)", up(0x34), "REFUSED 3 17 0")
    example("refused-18", "18: CL 2 at 7,500 ps, grade -133 (P4)", up(0x21), "REFUSED 3 18 0")
    example(
        "refused-19",
        "19: BURST TERMINATE while an auto precharge WRITE is unfinished",
        up_active(0x31, write(5, 1, A10), terminate(0)),
        *beats("W", 5, 13363, [0]),
        "REFUSED 6 19 0",
    )
    example(
        "refused-20",
        "20: WRITE at r + 7, one clock after a driven beat (P10)",
        up_active(0x32, read(2, 1, 0), *nops(6), write(0, 1, 0)),
        *beats("R", 8, 13363, [0, 1, 2, 3]),
        "REFUSED 12 20 0",
    )
    example("refused-21", "21: auto precharge on a full-page READ", up_active(0x37, read(5, 1, A10)), "REFUSED 5 21 0")


def of_minima():
    example("refused-16-1", "16, tRCD: READ 2 clocks after ACTIVE (P5)", up_active(0x31, read(1, 1, 0)), "REFUSED 5 16 1")
    example("refused-16-2", "16, tRAS: PRECHARGE 5 clocks after ACTIVE", up_active(0x31, precharge(4, 1)), "REFUSED 5 16 2")
    example(
        "refused-16-3",
        "16, tRC: grade -13E, ACTIVE 7 clocks after the bank's last, tRP met",
        up_active(0x31, precharge(4, 1), active(1, 1, 8)),
        "REFUSED 6 16 3",
        grade=1,
    )
    example("refused-16-4", "16, tRP: AUTO REFRESH 2 clocks after PRECHARGE ALL (P2)", [all_banks(13334), refresh(1)], "REFUSED 1 16 4")
    example("refused-16-5", "16, tRRD: ACTIVE of another bank 1 clock later", up_active(0x31, active(0, 2, 0)), "REFUSED 5 16 5")
    example(
        "refused-16-6",
        "16, tRFC: second refresh 8 clocks after the first (P3)",
        [all_banks(13334), refresh(2), refresh(7)],
        "REFUSED 2 16 6",
    )
    example(
        "refused-16-7",
        "16, tWR: PRECHARGE 1 clock after a stored beat (P8)",
        up_active(0x30, write(5, 1, 0), precharge(0, 1)),
        *beats("W", 5, 13363, [0]),
        "REFUSED 6 16 7",
    )
    example("refused-16-8", "16, tMRD: ACTIVE 1 clock after LOAD MODE", up(0x31, active(0, 1, 7)), "REFUSED 4 16 8")


PAGE = """# Examples

Small traces to try the program on. From the root of the repository:

    ./judge examples/printed.trace

prints a line for each reported beat and then one of these last lines. `python3 host/examples.py` writes the files here, with what
each must print by document 01; `python3 host/examples.py --run` runs the program on all of them.

| trace | shows | last line |
|---|---|---|
%s
The other numbers are not the program's: it has each grade's own table and a page of 16,384 bytes, so never 6 or 7. By these tables
a row is never open for tRAS max, since a refresh is due long before and needs every bank closed, so 12 is always given before 13 and 22. No whole trace gets 23, and 25
is the one-record call's. More than 65,536 bytes print `TOO LONG` alone: `head -c 65537 /dev/zero | ./judge`.
"""


def files():
    rows = ""
    for name, shows, trace, text in EXAMPLES:
        rows += "| `%s.trace` | %s | `%s` |\n" % (name, shows, text.splitlines()[-1])
        yield os.path.join("examples", name + ".trace"), trace
        if name == "printed":
            yield os.path.join("crates", "judge", "stdin"), trace
            yield os.path.join("crates", "judge", "stdout"), text.encode()
    yield os.path.join("examples", "README.md"), (PAGE % rows).encode()


def check():
    """The files that are not as they should be."""
    wanted = dict(files())
    wrong = [p for p, content in wanted.items() if not os.path.exists(os.path.join(ROOT, p)) or at_root(p) != content]
    here = (os.path.join("examples", name) for name in os.listdir(os.path.join(ROOT, "examples")))
    return wrong + [p for p in here if p not in wanted]


def at_root(path):
    with open(os.path.join(ROOT, path), "rb") as f:
        return f.read()


def run():
    """The examples of which the program prints something else."""
    wrong = []
    for name, _, _, text in EXAMPLES:
        path = os.path.join(ROOT, "examples", name + ".trace")
        done = subprocess.run([os.path.join(ROOT, "judge"), path], stdout=subprocess.PIPE)
        if done.returncode or done.stdout != text.encode():
            wrong.append(name)
    return wrong


def put():
    os.makedirs(os.path.join(ROOT, "examples"), exist_ok=True)
    for path, content in files():
        with open(os.path.join(ROOT, path), "wb") as f:
            f.write(content)
    return []


def main():
    clean()
    of_header()
    of_records()
    of_minima()
    wrong = check() if "--check" in sys.argv[1:] else run() if "--run" in sys.argv[1:] else put()
    for name in wrong:
        print("wrong:", name)
    print("%d examples, %d wrong" % (len(EXAMPLES), len(wrong)))
    return 1 if wrong else 0


if __name__ == "__main__":
    sys.exit(main())
