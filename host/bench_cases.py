#!/usr/bin/env python3
"""The bench cases of document 01 as bytes, and the answers that document 01 gives.

    python3 host/bench_cases.py            writes crates/bench/stdin and crates/bench/stdout
    python3 host/bench_cases.py --check    compares both files with what it would write

A case is a byte with its number, a byte with its count of records, the thirteen numbers of its table in four bytes each, and its
trace (header and records, document 01's layout). Its line is: its number, the verdict's number, record and interval, and each
reported beat as R or W, clock, column and lanes. Every answer here is written by hand from document 01's sentences; no judge is
run. The rows are those of crates/facts/specs/Cases.antt and FurtherCases.antt, but for the two on a clock near 2^40, which no
whole trace of version 1 reaches, and after them the printed case and the verdicts on the header and the table. Two rows there
that ask the columns and the lanes of one trace are one case here.
"""
import os
import sys

HERE = os.path.dirname(os.path.abspath(__file__))
BENCH = os.path.join(HERE, "..", "crates", "bench")

# The numbers of number 16's intervals.
TRCD, TRAS, TRC, TRP, TRRD, TRFC, TWR, TMRD = range(1, 9)

# Tables: tCK 2, tCK 3, tRAS min, tRAS max, tRC, tRCD, tRP, tRRD, tRFC, tWR, addition, refresh interval, tMRD.
G13E = (7500, 7000, 37000, 120000000, 60000, 15000, 15000, 14000, 66000, 14000, 7000, 7812500, 2)
G133 = (10000, 7500, 44000, 120000000, 66000, 20000, 20000, 15000, 66000, 15000, 7500, 7812500, 2)
OWN = (10000, 7500, 44000, 120000000, 66000, 20000, 20000, 15000, 66000, 15000, 7500, 200000000, 2)
NO_MINIMA = (0, 0, 0, 120000000, 0, 0, 0, 0, 0, 0, 0, 7812500, 0)
ONLY_TWR = (10000, 7500, 0, 120000000, 0, 0, 0, 0, 66000, 15000, 7500, 7812500, 2)


def other(trasmax, trc, trp):
    """-133 with other tRAS max, tRC and tRP."""
    return (10000, 7500, 44000, trasmax, trc, 20000, trp, 15000, 66000, 15000, 7500, 7812500, 2)


# CS#, RAS#, CAS#, WE#, from 003's table 8.
NOP, ACTIVE, READ, WRITE, TERMINATE, PRECHARGE, REFRESH, LOAD = 0b0111, 0b0011, 0b0101, 0b0100, 0b0110, 0b0010, 0b0001, 0b0000

A10 = 1024


def rec(skipped, code, ba=0, addr=0, masks=255, cke=1, zeros=0, dq=0):
    assert skipped < 1 << 24 and addr < 1 << 13
    word = skipped
    for value, bits in ((cke, 1), (code, 4), (ba, 2), (addr, 13), (masks, 8), (zeros, 12), (dq, 64)):
        word = word << bits | value
    return word.to_bytes(16, "big")


def header(period, count, grade=2, bank=0, row=0, version=1, zeros=0):
    word = version
    for value, bits in ((period, 24), (count, 16), (grade, 8), (bank, 2), (row, 13), (zeros, 57)):
        word = word << bits | value
    return word.to_bytes(16, "big")


def all_banks(s):
    return rec(s, PRECHARGE, 0, A10)


def precharge(s, b):
    return rec(s, PRECHARGE, b)


def refresh(s):
    return rec(s, REFRESH)


def load(s, word):
    return rec(s, LOAD, 0, word)


def active(s, b, row):
    return rec(s, ACTIVE, b, row)


def read(s, b, addr):
    return rec(s, READ, b, addr, 0)


def write(s, b, addr):
    return rec(s, WRITE, b, addr, 0)


def nop(s, masks):
    return rec(s, NOP, 0, 0, masks)


def terminate(s):
    return rec(s, TERMINATE, 0, 0, 0)


def nops(n):
    return [nop(0, 0)] * n


def up(word, *rs):
    """Start-up on the earliest clocks of grade -133 with this mode word (on 13,355), and what follows."""
    return [all_banks(13334), refresh(2), refresh(8), load(8, word), *rs]


def up_active(word, *rs):
    """Start-up, and row 7 of bank 1 opened on clock 13,357. A record with 2 skipped clocks after it stands on 13,360."""
    return up(word, active(1, 1, 7), *rs)


def reads(clock, columns, lanes=0xFF):
    """Beats of a READ on clocks one after another."""
    return [("R", clock + i, column, lanes) for i, column in enumerate(columns)]


def writes(clock, columns, lanes=0xFF):
    return [("W", clock + i, column, lanes) for i, column in enumerate(columns)]


CASES = []


def trace(table, period, rs, answer, beats, **head):
    head.setdefault("count", len(rs))
    head.setdefault("grade", 1 if table == G13E else 2)
    CASES.append((table, header(period, **head) + b"".join(rs), len(rs), answer, beats))


def refuses(table, period, rs, number, interval, record, beats=(), **head):
    trace(table, period, rs, (number, record, interval), beats, **head)


def takes(table, period, rs, beats=(), **head):
    trace(table, period, rs, (0, len(rs), 0), beats, **head)


def bench():
    # P1
    refuses(G133, 7500, [all_banks(13333)], 14, 0, 0)
    takes(G133, 7500, [all_banks(13334)])
    # P2
    refuses(G133, 7500, [all_banks(13334), refresh(1)], 16, TRP, 1)
    takes(G133, 7500, [all_banks(13334), refresh(2)])
    # P3
    refuses(G133, 7500, [all_banks(13334), refresh(2), refresh(7)], 16, TRFC, 2)
    takes(G133, 7500, [all_banks(13334), refresh(2), refresh(8)])
    # P4
    takes(G133, 7500, up(0x31))
    refuses(G133, 7500, up(0x34), 17, 0, 3)
    refuses(G133, 7500, up(0x3F), 17, 0, 3)
    refuses(G133, 7500, up(0x21), 18, 0, 3)
    takes(G13E, 7500, up(0x21))
    # P5
    refuses(G133, 7500, up_active(0x31, read(1, 1, 0)), 16, TRCD, 5)
    takes(G13E, 7500, up_active(0x31, read(1, 1, 0)))
    # P6: READ on 13,360 with CL 3, WRITE on 13,360
    takes(G133, 7500, up_active(0x3B, read(2, 1, 13), *nops(12)), reads(13363, [13, 12, 15, 14, 9, 8, 11, 10]))
    takes(G133, 7500, up_active(0x32, write(2, 1, 6), *nops(5)), writes(13360, [6, 7, 4, 5]))
    # P7: column 2,046 has A11 HIGH, so its address is 3,070
    takes(G133, 7500, up_active(0x37, write(2, 1, 3070), *nops(2)), writes(13360, [2046, 2047, 0]))
    # P8: WRITE on 13,363
    refuses(G133, 7500, up_active(0x30, write(5, 1, 0), precharge(0, 1)), 16, TWR, 6, writes(13363, [0]))
    takes(G133, 7500, up_active(0x30, write(5, 1, 0), precharge(1, 1)), writes(13363, [0]))
    # P9: WRITE on 13,378
    refuses(G133, 9000, up_active(0x30, write(20, 1, A10), active(3, 1, 8)), 16, TRP, 6, writes(13378, [0]))
    takes(G133, 9000, up_active(0x30, write(20, 1, A10), active(4, 1, 8)), writes(13378, [0]))
    # P10: READ on 13,360, its beats on 13,363 to 13,366; the WRITE taken stands on 13,368
    refuses(G133, 7500, up_active(0x32, read(2, 1, 0), *nops(6), write(0, 1, 0)), 20, 0, 12, reads(13363, [0, 1, 2, 3]))
    takes(
        G133,
        7500,
        up_active(0x32, read(2, 1, 0), *nops(7), write(0, 1, 0)),
        reads(13363, [0, 1, 2, 3]) + writes(13368, [0]),
    )
    takes(G133, 7500, up_active(0x32, read(2, 1, 0), nop(0, 0), terminate(0), *nops(5)), reads(13363, [0, 1]))
    # P11
    takes(G133, 7500, [all_banks(13334), refresh(2), refresh(8), nop(1040, 255)])
    refuses(G133, 7500, [all_banks(13334), refresh(2), refresh(8), nop(1041, 255)], 12, 0, 3)
    # P12
    takes(OWN, 7500, up_active(0x31, nop(15999, 255)))
    refuses(OWN, 7500, up_active(0x31, nop(16000, 255)), 13, 0, 5)


def further():
    # 10 and 11
    refuses(G133, 7500, [rec(0, NOP, zeros=1)], 10, 0, 0)
    refuses(G133, 7500, [rec(0, NOP, cke=0)], 11, 0, 0)
    # 12 counts from the second refresh on, and hits the refresh that would cure it
    takes(G133, 7500, [all_banks(13334), refresh(2), nop(2000, 255)])
    refuses(G133, 7500, [all_banks(13334), refresh(2), refresh(8), refresh(1041)], 12, 0, 3)
    # 14: each step of start-up
    takes(G133, 7500, [nop(5, 255), all_banks(13334)])
    refuses(G133, 7500, [precharge(13334, 0)], 14, 0, 0)
    refuses(G133, 7500, [all_banks(13334), active(5, 0, 0)], 14, 0, 1)
    refuses(G133, 7500, [all_banks(13334), refresh(2), load(8, 0x31)], 14, 0, 2)
    refuses(G133, 7500, [all_banks(13334), refresh(2), refresh(8), active(8, 0, 0)], 14, 0, 3)
    # 15
    refuses(G133, 7500, up_active(0x31, active(9, 1, 8)), 15, 0, 5)
    refuses(G133, 7500, up(0x31, read(5, 1, 0)), 15, 0, 4)
    refuses(G133, 7500, up_active(0x31, refresh(9)), 15, 0, 5)
    refuses(G133, 7500, up_active(0x31, load(9, 0x31)), 15, 0, 5)
    # 16: each minimum on both sides, and the lowest of two
    refuses(G133, 7500, up_active(0x31, precharge(4, 1)), 16, TRAS, 5)
    takes(G133, 7500, up_active(0x31, precharge(5, 1)))
    refuses(other(120000000, 100000, 20000), 7500, up_active(0x31, precharge(5, 1), active(2, 1, 8)), 16, TRC, 6)
    takes(G133, 7500, up_active(0x31, precharge(5, 1), active(2, 1, 8)))
    refuses(G133, 7500, up_active(0x31, active(0, 2, 0)), 16, TRRD, 5)
    takes(G133, 7500, up_active(0x31, active(1, 2, 0)))
    refuses(G133, 7500, up(0x31, active(0, 1, 7)), 16, TMRD, 4)
    refuses(G133, 7500, up_active(0x30, write(2, 1, 0), precharge(0, 1)), 16, TRAS, 6, writes(13360, [0]))
    # tRP since a PRECHARGE ALL of banks long closed holds back BURST TERMINATE too
    refuses(G133, 7500, up(0x31, all_banks(10), terminate(0)), 16, TRP, 5)
    takes(G133, 7500, up(0x31, all_banks(10), terminate(2)))
    # a masked beat starts no tWR, and is reported with lanes 00; a PRECHARGE of a closed bank starts no tRP
    takes(G133, 7500, up_active(0x30, rec(5, WRITE, 1, 0, 255), precharge(0, 1)), writes(13363, [0], 0))
    takes(G133, 7500, up_active(0x30, precharge(5, 1), precharge(2, 1), active(0, 1, 8)))
    # an ACTIVE starts no tWR; a store starts that of its own bank only. That WRITE stands on 13,365
    takes(ONLY_TWR, 7500, up_active(0x30, precharge(0, 1)))
    takes(G133, 7500, up_active(0x30, active(1, 2, 7), write(5, 1, 0), precharge(0, 2)), writes(13365, [0]))
    # 17: BA, CL, M7, M10, A12; M3 = 1 with length 1 and M9 with full page are legal
    refuses(G133, 7500, [all_banks(13334), refresh(2), refresh(8), rec(8, LOAD, 1, 0x31)], 17, 0, 3)
    refuses(G133, 7500, up(0x11), 17, 0, 3)
    refuses(G133, 7500, up(0xB1), 17, 0, 3)
    refuses(G133, 7500, up(0x431), 17, 0, 3)
    refuses(G133, 7500, up(0x1031), 17, 0, 3)
    takes(G133, 7500, up(0x38))
    takes(G133, 7500, up(0x237))
    # 19 ends at r + length: READ of bank 1 on 13,363, and of bank 2 on 13,366 or 13,367
    refuses(G133, 7500, up_active(0x31, write(5, 1, A10), terminate(0)), 19, 0, 6, writes(13363, [0]))
    refuses(G133, 7500, up_active(0x32, active(1, 2, 7), read(3, 1, A10), read(2, 2, 0)), 19, 0, 7)
    takes(
        G133,
        7500,
        up_active(0x32, active(1, 2, 7), read(3, 1, A10), read(3, 2, 0)),
        # the READ on 13,363 has its beat 1 on 13,367; the masks of 13,365 were HIGH, skipped
        reads(13367, [1], 0),
    )
    # 20: on its clock; one clock before, by a mask three clocks back; a WRITE next to a READ with CL 3 ends it
    refuses(G133, 7500, up_active(0x32, read(2, 1, 0), *nops(2), write(0, 1, 0)), 20, 0, 8)
    refuses(G133, 7500, up_active(0x30, read(2, 1, 0), nop(0, 0), write(2, 1, 0)), 20, 0, 7)
    takes(G133, 7500, up_active(0x30, read(2, 1, 0), write(3, 1, 0)), writes(13364, [0]))
    takes(G133, 7500, up_active(0x32, read(2, 1, 0), write(0, 1, 8), *nops(4)), writes(13361, [8, 9, 10, 11]))
    takes(G133, 7500, up_active(0x232, read(2, 1, 0), write(0, 1, 8), *nops(4)), writes(13361, [8]))
    # 21
    refuses(G133, 7500, up_active(0x37, read(5, 1, A10)), 21, 0, 5)
    refuses(G133, 7500, up_active(0x37, write(5, 1, A10)), 21, 0, 5)
    takes(G133, 7500, up_active(0x237, write(5, 1, A10)), writes(13363, [0]))
    # 22: closing 60,000 ps after the ACTIVE
    refuses(other(59999, 66000, 20000), 7500, up_active(0x31, read(5, 1, A10)), 22, 0, 5)
    takes(other(60000, 66000, 20000), 7500, up_active(0x31, read(5, 1, A10)))
    # auto precharge: not rounded to a clock; no CL in it; ACTIVE + tRAS min where that is later
    takes(other(120000000, 66000, 19500), 9000, up_active(0x30, write(20, 1, A10), active(3, 1, 8)), writes(13378, [0]))
    # READ on 13,378 with CL 3 and length 2: beats on 13,381, skipped, and 13,382, where the refused ACTIVE stands
    refuses(G133, 7500, up_active(0x31, read(20, 1, A10), active(3, 1, 8)), 16, TRP, 6)
    takes(G133, 7500, up_active(0x31, read(20, 1, A10), active(4, 1, 8)))
    refuses(other(120000000, 0, 20000), 7500, up_active(0x31, read(2, 1, A10), active(4, 1, 8)), 16, TRP, 6)
    # the masks of a READ beat are two clocks old; of a WRITE beat its own
    takes(G133, 7500, up_active(0x30, read(2, 1, 0), nop(0, 0xF0), nop(0, 0), nop(0, 0xFF)), reads(13363, [0], 0x0F))
    takes(
        G133,
        7500,
        up_active(0x32, write(2, 1, 0), precharge(0, 2), *nops(3)),
        writes(13360, [0]) + writes(13361, [1], 0) + writes(13362, [2, 3]),
    )
    # full page goes on; only its own bank's PRECHARGE cuts it
    takes(OWN, 7500, up_active(0x37, write(2, 1, 0), nop(2047, 0)), writes(13360, [0]) + writes(15408, [0]))
    takes(G133, 7500, up_active(0x37, write(5, 1, 0), precharge(1, 1), nop(0, 0)), writes(13363, [0]))
    takes(G133, 7500, up_active(0x32, read(5, 1, 0), precharge(0, 1), *nops(5)), reads(13366, [0], 0))
    # M9 = 1 makes writes single; A11 then A9 to A0 is the column
    takes(G133, 7500, up_active(0x231, write(2, 1, 5), nop(0, 0)), writes(13360, [5]))
    takes(G133, 7500, up_active(0x237, write(2, 1, 5), nop(0, 0)), writes(13360, [5]))
    takes(G133, 7500, up_active(0x30, write(2, 1, 7173)), writes(13360, [1029]))
    # a burst keeps the mode of its registration: CL 3, though CL 2 is loaded before its beats. READ on 13,360, PRECHARGE on
    # 13,362, LOAD MODE on 13,363, whose masks are HIGH; the beats on 13,363 and 13,364 have the masks of 13,361 and 13,362
    takes(
        NO_MINIMA,
        7500,
        up_active(0x32, read(2, 1, 0), nop(0, 0), precharge(0, 1), load(0, 0x21), *nops(3)),
        reads(13363, [0]) + reads(13364, [1], 0),
    )


def printed():
    # the printed case: W 5 13360 1 7 5 ff, W 6 13361 1 7 4 0f, OK 8
    takes(
        G133,
        7500,
        up_active(0x31, write(2, 1, 5), nop(0, 0xF0), precharge(1, 1)),
        writes(13360, [5]) + writes(13361, [4], 0x0F),
        bank=1,
        row=7,
    )


def whole():
    # zero records is a clean trace; then 1 to 6, each of header or table, and the first of two
    takes(G133, 7500, [])
    refuses(G133, 7500, [all_banks(13334)], 1, 0, 0, count=2)
    refuses(G133, 7500, [all_banks(13334)], 1, 0, 0, count=0, version=2)
    refuses(G133, 7500, [all_banks(13334)], 2, 0, 0, version=2)
    refuses(G133, 999, [], 3, 0, 0)
    takes(G133, 1000, [])
    takes(G133, 65535, [])
    refuses(G133, 65536, [], 3, 0, 0)
    refuses(G133, 7500, [], 4, 0, 0, grade=0)
    takes(G133, 7500, [], grade=1)
    refuses(G133, 7500, [], 4, 0, 0, grade=3)
    refuses(G133, 7500, [], 5, 0, 0, zeros=1)
    refuses(G133, 7500, [], 5, 0, 0, zeros=1 << 56)
    refuses(G133[:12] + (16,), 7500, [], 6, 0, 0)
    takes(G133[:12] + (15,), 7500, [])
    refuses((200000001,) + G133[1:], 7500, [], 6, 0, 0)
    takes((200000000,) + G133[1:], 7500, [])
    refuses(other(43999, 66000, 20000), 7500, [], 6, 0, 0)
    takes(other(44000, 66000, 20000), 7500, [])


def block(number, table, bytes_, count):
    return bytes([number, count]) + b"".join(n.to_bytes(4, "big") for n in table) + bytes_


def line(number, answer, beats):
    words = [str(number), *map(str, answer)]
    for kind, clock, column, lanes in beats:
        words += [kind, str(clock), str(column), "%02x" % lanes]
    return " ".join(words) + "\n"


def main():
    bench()
    further()
    printed()
    whole()
    stdin, stdout = b"", ""
    for number, (table, bytes_, count, answer, beats) in enumerate(CASES, 1):
        stdin += block(number, table, bytes_, count)
        stdout += line(number, answer, beats)
    assert len(CASES) < 256 and len(stdin) <= 60000
    wrong = False
    for name, content in (("stdin", stdin), ("stdout", stdout.encode())):
        path = os.path.join(BENCH, name)
        if "--check" in sys.argv[1:]:
            with open(path, "rb") as f:
                wrong |= f.read() != content
        else:
            with open(path, "wb") as f:
                f.write(content)
    print("%d cases, %d bytes%s" % (len(CASES), len(stdin), ", and the files differ" if wrong else ""))
    return 1 if wrong else 0


if __name__ == "__main__":
    sys.exit(main())
