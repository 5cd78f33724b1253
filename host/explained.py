#!/usr/bin/env python3
"""What ./explain says of each example, and of traces that show what the examples do not.

    python3 host/explained.py            writes the program's crates/explain/stdin and stdout
    python3 host/explained.py --check    compares these files with what it would write, and the examples with the list here
    python3 host/explained.py --run      runs ./explain on each trace and compares all that it says

The figures, events and rules of each line are document 01's, worked out by hand: a clock times the period, and the speed table's figures.
The wording is the program's own.
"""
import os
import subprocess
import sys

import examples
from bench_cases import A10, LOAD, active, all_banks, header, load, precharge, read, rec, refresh, terminate, up, up_active, write

ROOT = examples.ROOT
SAID = {}
MORE = []


def of_example(name, *lines):
    SAID[name] = "".join(line + "\n" for line in lines)


def more(name, rs, *lines, period=7500, **head):
    """A trace that is no example: grade -133 and the period of the bench cases unless said."""
    head.setdefault("count", len(rs))
    MORE.append((name, header(period, **head) + b"".join(rs), "".join(line + "\n" for line in lines)))


def clean(name, count):
    of_example(name, "Clean: %d records, none illegal." % count)


def fault(name, number, line):
    of_example(name, "The trace is refused with number %d, before its records." % number, line)


# The clocks at 7,500 ps: PRECHARGE ALL on 13,334, refreshes on 13,337 and 13,346, LOAD MODE on 13,355, ACTIVE of bank 1 on 13,357.
ACTIVE_1 = "the ACTIVE of bank 1, on clock 13357, at 100177.500 ns."


def of_header():
    fault("refused-1", 1, "The file has 32 bytes; its header and its count ask for 48.")
    fault("refused-2", 2, "The version is 2; it must be 1.")
    fault("refused-3", 3, "The clock period is 999 ps; it must be 1000 to 65535 ps.")
    fault("refused-4", 4, "The speed grade is 3; it must be 1 (-13E) or 2 (-133).")
    fault("refused-5", 5, "A bit of the header that must be zero is set.")


def of_records():
    of_example(
        "refused-10",
        "Record 4 is refused with number 10.",
        "Command: NOP, on clock 13356, at 100170.000 ns.",
        "A bit of the record that must be zero is set.",
    )
    of_example(
        "refused-11",
        "Record 4 is refused with number 11.",
        "Command: NOP, on clock 13356, at 100170.000 ns.",
        "CKE is LOW.",
    )
    of_example(
        "refused-12",
        "Record 3 is refused with number 12.",
        "Command: NOP, on clock 14388, at 107910.000 ns.",
        "The last refresh is longer ago than the refresh interval.",
        "Asked: at most 7812.500 ns since the last AUTO REFRESH, on clock 13346, at 100095.000 ns.",
        "Found: 7815.000 ns.",
    )
    of_example(
        "refused-14",
        "Record 0 is refused with number 14.",
        "Command: PRECHARGE ALL, on clock 13333, at 99997.500 ns.",
        "The first PRECHARGE ALL must not stand before 100000.000 ns.",
        "Asked: at least 100000.000 ns.",
        "Found: 99997.500 ns.",
    )
    of_example(
        "refused-15",
        "Record 4 is refused with number 15.",
        "Command: READ bank 1 column 0, on clock 13361, at 100207.500 ns.",
        "READ and WRITE ask that their bank is open.",
        "Found: the closing of bank 1, on clock 13334, at 100005.000 ns.",
    )


def of_mode_and_bus():
    of_example(
        "refused-17",
        "Record 3 is refused with number 17.",
        "Command: LOAD MODE 0034, on clock 13355, at 100162.500 ns.",
        "The mode word is reserved.",
    )
    of_example(
        "refused-18",
        "Record 3 is refused with number 18.",
        "Command: LOAD MODE 0021, on clock 13355, at 100162.500 ns.",
        "The clock period is below tCK of the chosen latency.",
        "Asked: at least 10.000 ns.",
        "Found: 7.500 ns.",
    )
    of_example(
        "refused-19",
        "Record 6 is refused with number 19.",
        "Command: BURST TERMINATE, on clock 13364, at 100230.000 ns.",
        "An auto precharge burst is unfinished.",
        "Asked: at least 15.000 ns since the WRITE with auto precharge of bank 1, on clock 13363, at 100222.500 ns.",
        "Found: 7.500 ns.",
    )
    of_example(
        "refused-20",
        "Record 12 is refused with number 20.",
        "Command: WRITE bank 1 row 7 column 0, on clock 13367, at 100252.500 ns.",
        "The data bus is not clear for a WRITE: a READ drives it on this clock or on the one before.",
    )
    of_example(
        "refused-21",
        "Record 5 is refused with number 21.",
        "Command: READ bank 1 row 7 column 0 with auto precharge, on clock 13363, at 100222.500 ns.",
        "Auto precharge is asked of a full-page burst.",
    )


def minimum(record, interval, command, rule, asked, found):
    """The lines of number 16."""
    return (
        "Record %d is refused with number 16, interval %d." % (record, interval),
        "Command: " + command,
        rule,
        "Asked: at least " + asked,
        "Found: " + found,
    )


RCD = "tRCD: READ or WRITE too soon after the ACTIVE of its bank."
RAS = "tRAS: PRECHARGE too soon after the ACTIVE of its bank."
RC = "tRC: ACTIVE too soon after the last ACTIVE of its bank."
RP = "tRP: too soon after a closing."
RRD = "tRRD: ACTIVE too soon after an ACTIVE of another bank."
RFC = "tRFC: too soon after an AUTO REFRESH."
WR = "tWR: PRECHARGE too soon after a byte was stored in its bank."
MRD = "tMRD: too soon after a LOAD MODE."


def of_minima():
    on_13364 = "on clock 13364, at 100230.000 ns."
    rows = (
        (5, 1, "READ bank 1 row 7 column 0, on clock 13359, at 100192.500 ns.", RCD, "20.000 ns since " + ACTIVE_1, "15.000 ns."),
        (5, 2, "PRECHARGE bank 1, on clock 13362, at 100215.000 ns.", RAS, "44.000 ns since " + ACTIVE_1, "37.500 ns."),
        (6, 3, "ACTIVE bank 1 row 8, " + on_13364, RC, "60.000 ns since " + ACTIVE_1, "52.500 ns."),
        (
            1,
            4,
            "AUTO REFRESH, on clock 13336, at 100020.000 ns.",
            RP,
            "20.000 ns since the last PRECHARGE ALL, on clock 13334, at 100005.000 ns.",
            "15.000 ns.",
        ),
        (5, 5, "ACTIVE bank 2 row 0, on clock 13358, at 100185.000 ns.", RRD, "15.000 ns since " + ACTIVE_1, "7.500 ns."),
        (
            2,
            6,
            "AUTO REFRESH, on clock 13345, at 100087.500 ns.",
            RFC,
            "66.000 ns since the last AUTO REFRESH, on clock 13337, at 100027.500 ns.",
            "60.000 ns.",
        ),
        (
            6,
            7,
            "PRECHARGE bank 1, " + on_13364,
            WR,
            "15.000 ns since the last stored byte of bank 1, on clock 13363, at 100222.500 ns.",
            "7.500 ns.",
        ),
        (
            4,
            8,
            "ACTIVE bank 1 row 7, on clock 13356, at 100170.000 ns.",
            MRD,
            "15.000 ns since the last LOAD MODE, on clock 13355, at 100162.500 ns.",
            "7.500 ns.",
        ),
    )
    for row in rows:
        of_example("refused-16-%d" % row[1], *minimum(*row))


def more_minima():
    more(
        "P9: a closing between two clocks",
        up_active(0x30, write(20, 1, A10), active(3, 1, 8)),
        *minimum(
            6,
            4,
            "ACTIVE bank 1 row 8, on clock 13382, at 120438.000 ns.",
            RP,
            "20.000 ns since the closing of bank 1, at 120418.500 ns.",
            "19.500 ns.",
        ),
        period=9000,
    )
    more(
        "a closing that is still ahead",
        up_active(0x33, read(5, 1, A10), precharge(0, 1)),
        *minimum(
            6,
            4,
            "PRECHARGE bank 1, on clock 13364, at 100230.000 ns.",
            RP,
            "20.000 ns since the closing of bank 1, on clock 13371, at 100282.500 ns.",
            "it is still ahead, by 52.500 ns.",
        ),
    )
    more(
        "PRECHARGE ALL: the bank that was opened last decides",
        up_active(0x31, active(1, 2, 9), all_banks(3)),
        *minimum(
            6,
            2,
            "PRECHARGE ALL, on clock 13363, at 100222.500 ns.",
            RAS,
            "44.000 ns since the ACTIVE of bank 2, on clock 13359, at 100192.500 ns.",
            "30.000 ns.",
        ),
    )
    more(
        "a PRECHARGE ALL holds BURST TERMINATE back",
        up(0x31, all_banks(10), terminate(0)),
        *minimum(
            5,
            4,
            "BURST TERMINATE, on clock 13367, at 100252.500 ns.",
            RP,
            "20.000 ns since the last PRECHARGE ALL, on clock 13366, at 100245.000 ns.",
            "7.500 ns.",
        ),
    )


def more_places():
    more(
        "14: a PRECHARGE of one bank first",
        [precharge(13334, 0)],
        "Record 0 is refused with number 14.",
        "Command: PRECHARGE bank 0, on clock 13334, at 100005.000 ns.",
        "Before the first PRECHARGE ALL only NOP and COMMAND INHIBIT are allowed.",
    )
    more(
        "14: LOAD MODE after one refresh",
        [all_banks(13334), refresh(2), load(8, 0x31)],
        "Record 2 is refused with number 14.",
        "Command: LOAD MODE 0031, on clock 13346, at 100095.000 ns.",
        "Before two AUTO REFRESH only PRECHARGE and AUTO REFRESH are allowed.",
    )
    more(
        "14: ACTIVE before LOAD MODE",
        [all_banks(13334), refresh(2), refresh(8), active(8, 0, 0)],
        "Record 3 is refused with number 14.",
        "Command: ACTIVE bank 0 row 0, on clock 13355, at 100162.500 ns.",
        "Before the first LOAD MODE only PRECHARGE, AUTO REFRESH and LOAD MODE are allowed.",
    )
    more(
        "15: ACTIVE of an open bank",
        up_active(0x31, active(9, 1, 8)),
        "Record 5 is refused with number 15.",
        "Command: ACTIVE bank 1 row 8, on clock 13367, at 100252.500 ns.",
        "ACTIVE asks that its bank is closed.",
        "Found: " + ACTIVE_1,
    )
    more(
        "15: AUTO REFRESH with a bank open",
        up_active(0x31, refresh(9)),
        "Record 5 is refused with number 15.",
        "Command: AUTO REFRESH, on clock 13367, at 100252.500 ns.",
        "AUTO REFRESH and LOAD MODE ask that every bank is closed.",
        "Found: " + ACTIVE_1,
    )


def more_commands():
    more(
        "17: a BA that is not 0",
        [all_banks(13334), refresh(2), refresh(8), rec(8, LOAD, 1, 0x31)],
        "Record 3 is refused with number 17.",
        "Command: LOAD MODE 0031 with BA 1, on clock 13355, at 100162.500 ns.",
        "The mode word is reserved.",
    )
    more(
        "19: a READ that cuts a READ",
        up_active(0x32, active(1, 2, 7), read(3, 1, A10), read(2, 2, 0)),
        "Record 7 is refused with number 19.",
        "Command: READ bank 2 row 7 column 0, on clock 13366, at 100245.000 ns.",
        "An auto precharge burst is unfinished.",
        "Asked: at least 30.000 ns since the READ with auto precharge of bank 1, on clock 13363, at 100222.500 ns.",
        "Found: 22.500 ns.",
    )
    more(
        "21: column 1,029 is A11 and 5",
        up_active(0x37, write(5, 1, A10 + 2048 + 5)),
        "Record 5 is refused with number 21.",
        "Command: WRITE bank 1 row 7 column 1029 with auto precharge, on clock 13363, at 100222.500 ns.",
        "Auto precharge is asked of a full-page burst.",
    )
    more(
        "12: COMMAND INHIBIT",
        [all_banks(13334), refresh(2), refresh(8), rec(1041, 0b1000)],
        "Record 3 is refused with number 12.",
        "Command: COMMAND INHIBIT, on clock 14388, at 107910.000 ns.",
        "The last refresh is longer ago than the refresh interval.",
        "Asked: at most 7812.500 ns since the last AUTO REFRESH, on clock 13346, at 100095.000 ns.",
        "Found: 7815.000 ns.",
    )


def of_length():
    short = "The trace is refused with number 1, before its records.\nThe file has 15 bytes; its header and its count ask for 16.\n"
    MORE.append(("a file shorter than its header", header(7500, 0)[:15], short))
    MORE.append(("a file of 65,537 bytes", bytes(65537), "TOO LONG\n"))


def of_clean():
    for name, count in (("printed", 8), ("no-records", 0), ("read", 13), ("read-interleaved", 17), ("read-terminated", 12)):
        clean(name, count)
    for name, count in (("read-13e", 9), ("write-full-page", 8), ("write-masked", 7)):
        clean(name, count)


def files():
    """The run of the program's own check: 16, tWR."""
    yield os.path.join("crates", "explain", "stdin"), examples.at_root("examples/refused-16-7.trace")
    yield os.path.join("crates", "explain", "stdout"), SAID["refused-16-7"].encode()


def check():
    """The files that are not as they should be, and the examples of which nothing is said here."""
    there = [name[: -len(".trace")] for name in os.listdir(os.path.join(ROOT, "examples")) if name.endswith(".trace")]
    return [path for path, content in files() if examples.at_root(path) != content] + sorted(set(there) ^ set(SAID))


def run():
    """The traces of which the program says something else."""
    traces = [(name, examples.at_root("examples/%s.trace" % name), text) for name, text in SAID.items()] + MORE
    wrong = []
    for name, trace, text in traces:
        done = subprocess.run([os.path.join(ROOT, "explain")], input=trace, stdout=subprocess.PIPE)
        if done.returncode or done.stdout != text.encode():
            wrong.append(name)
    return wrong


def put():
    for path, content in files():
        with open(os.path.join(ROOT, path), "wb") as f:
            f.write(content)
    return []


def main():
    for part in (of_clean, of_header, of_records, of_mode_and_bus, of_minima, more_minima, more_places, more_commands, of_length):
        part()
    wrong = check() if "--check" in sys.argv[1:] else run() if "--run" in sys.argv[1:] else put()
    for name in wrong:
        print("wrong:", name)
    print("%d traces, %d wrong" % (len(SAID) + len(MORE), len(wrong)))
    return 1 if wrong else 0


if __name__ == "__main__":
    sys.exit(main())
