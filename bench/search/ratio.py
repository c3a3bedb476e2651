#!/usr/bin/env python3
"""The product beside the plain search (plain.rs).

The same sheets, the same intervals, in one run, by processor time (the least of five). Families without a plan for a
reason that the plain search does not look for (bench/impossible.py) are left out.

    ratio.py [SHEETS [SEED]]

Both are asked each interval up to the first plan. Answers and, for a plan, starts must be equal; then the times
of both (median / 95 % / greatest, ms), the ratio of the sums, and the search nodes of both (95 % / most).
The product is called through its C archive (bench/times.c); what leastplan prints has its starts.
"""

import os
import subprocess
import sys

HERE = os.path.dirname(os.path.abspath(__file__))
sys.path.insert(0, os.path.join(HERE, ".."))

import loops
import measure
import product
from measure import counted, milliseconds
from reference import sheet_text


def plain_program():
    os.makedirs(measure.BUILT, exist_ok=True)
    out = os.path.join(measure.BUILT, "plain")
    subprocess.run(["rustc", "--edition", "2021", "-O", "-o", out, os.path.join(HERE, "plain.rs")], check=True)
    return out


def printed_starts(text):
    """The starts of the plan that leastplan prints for a sheet."""
    lines = product.run("leastplan", text).decode().splitlines()
    return ",".join(line[3:].split(",")[0] for line in lines if line.startswith("at="))


def family_row(times, plain, family, count, seed):
    texts = [sheet_text(loops.sheet_of(family, seed + k)) for k in range(count)]
    ours = measure.least_rows(times, texts, measure.search_nodes(times, texts))
    theirs = measure.least_rows(plain, texts)
    for text, a, b in zip(texts, ours, theirs):
        starts = "".join(b[-1][4:])
        if [row[:2] for row in a] != [row[:2] for row in b] or printed_starts(text) != starts:
            sys.exit("a sheet of %s has another answer:\n%s" % (family, text.decode()))
    mine, others = [r for rows in ours for r in rows], [r for rows in theirs for r in rows]
    took, plain_took = [r[2] for r in mine], [r[2] for r in others]
    nodes = counted([r[3] for r in mine if len(r) > 3]), counted([int(r[3]) for r in others])
    cells = family, len(mine), milliseconds(took), milliseconds(plain_took), sum(took) / sum(plain_took)
    print("| %s | %d | %s | %s | %.2f | %s | %s |" % (*cells, *nodes), flush=True)


def main():
    count = int(sys.argv[1]) if len(sys.argv) > 1 else 40
    seed = int(sys.argv[2]) if len(sys.argv) > 2 else 0
    times, plain = measure.times_program(), plain_program()
    print("| family | intervals | leastplan, ms | plain search, ms | ratio | nodes, leastplan | nodes, plain |")
    print("|---|---|---|---|---|---|---|")
    for family in loops.SEARCHED:
        family_row(times, plain, family, count, seed)


if __name__ == "__main__":
    main()
