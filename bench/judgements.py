#!/usr/bin/env python3
"""How long the judgement of an answer takes beside reading its sheet:  judgements.py

For the largest text that passes, 1,023 lines whose leaves are walks of 24 edges, for one of half as many lines, and for
a plan of 24 operations: the call leastplan_judge, and the call leastplan_slot_order at interval 0, which reads the
sheet and no more. The least of some rounds that take turns; processor time, in microseconds.
"""

import functools
import os
import sys
import time

HERE = os.path.dirname(os.path.abspath(__file__))
sys.path.insert(0, os.path.join(HERE, "..", "tests"))

import host
import reference as ref

ROUNDS, CALLS = 20, 10
OPERATIONS, EDGES = 24, 96

# A ring through all operations that no interval meets, and edges besides; every operation of one type.
RING = [(i, (i + 1) % OPERATIONS, 0, 0) for i in range(OPERATIONS)]
SHEET = ref.plain_sheet(128, 64, [(8, 1)], [0] * OPERATIONS, RING + [(0, 1, -64, 8)] * (EDGES - OPERATIONS))
FREE = ref.plain_sheet(128, 64, [(8, 1)], [0] * OPERATIONS, [])


def tree(cuts, lines):
    """A tree of so many lines, an odd number: a leaf after each cut, as many in a row as there may be."""
    leaf = b"loop=" + b",".join(b"%d" % k for k in range(OPERATIONS)) + b"\n"
    if lines < 3 or not cuts:
        return leaf, 1
    first, used = tree(cuts - 1, (lines - 1) // 2 | 1)
    second, more = tree(cuts - 1, lines - 1 - used)
    return b"split=0,0\n" + first + second, 1 + used + more


def denial(lines):
    text, used = tree(64, lines - 2)
    return b"answer=5\ninterval=1\n" + text, used + 2


def plan():
    lines = b"".join(b"at=%d,0\n" % i for i in range(OPERATIONS))
    return b"answer=0\ninterval=24\n" + lines, OPERATIONS + 2


def least(calls):
    """The least time of each call, over rounds in which they take turns."""
    best = [float("inf")] * len(calls)
    for _ in range(ROUNDS):
        for k, call in enumerate(calls):
            began = time.process_time_ns()
            for _ in range(CALLS):
                call()
            best[k] = min(best[k], (time.process_time_ns() - began) / CALLS / 1000)
    return best


def main():
    library = host.Host()
    rows = [("largest tree", SHEET, denial(1023)), ("half of it", SHEET, denial(511)), ("a plan", FREE, plan())]
    texts = [(name, ref.sheet_text(sheet), text, lines) for name, sheet, (text, lines) in rows]
    assert all(library.judge(sheet, text) == 0 for _, sheet, text, _ in texts)
    call = library.library
    judged = [functools.partial(call.leastplan_judge, *host.counted(s), *host.counted(t)) for _, s, t, _ in texts]
    read = functools.partial(call.leastplan_slot_order, *host.counted(texts[0][1]), host.SIZE(0), host.SIZE(0))
    *times, reading = least([*judged, read])
    for (name, _, text, lines), took in zip(texts, times):
        print("%-13s %6d bytes %5d lines  judged %8.1f  read %6.1f  judged/read %6.1f" % (
            name, len(text), lines, took, reading, took / reading))
    print("largest/half  %.2f" % (times[0] / times[1]))


main()
