#!/usr/bin/env python3
"""Compares what the solvers say of the encodings with brute force (tests/reference.py) on small random sheets.

    check_encodings.py [SHEETS [SEED [SOLVER ..]]]

Each kind of small sheet of tests/sheets.py in turn, each interval up to the cap; by all solvers that are installed, or
those named. For each solver: questions, how many have a plan, how many have operations of a limited type with K above
1, how many of those have a plan, and other answers than brute force; where there is one, the first such sheet.
"""

import os
import sys
import tempfile

import measure  # finds tests/ too
import reference as ref
import sheets
import solvers

COLUMNS = "questions", "with a plan", "K above 1", "of these with a plan", "other answers"


def questions(count, seed):
    """(sheet, interval, whether there is a plan)"""
    rng = sheets.seeded(seed)
    for k in range(count):
        sheet = sheets.SMALL[k % len(sheets.SMALL)](rng)
        for interval in range(1, sheet.cap + 1):
            yield sheet, interval, ref.plan_at(sheet, interval)[0] == 0


def stays_busy(sheet):
    return any(ref.instances_of(sheet, i) and ref.busy(sheet, i) > 1 for i in range(len(sheet.ops)))


def answer_of(solver, sheet, interval):
    with tempfile.TemporaryDirectory() as folder:
        path = os.path.join(folder, "plan" + solver.suffix)
        solver.write(sheet, interval, path)
        return solver.run(path)[0]


def check(solver, asked):
    wrong = [q for q in asked if answer_of(solver, *q[:2]) != ("sat" if q[2] else "unsat")]
    busy = [q for q in asked if stays_busy(q[0])]
    numbers = len(asked), sum(q[2] for q in asked), len(busy), sum(q[2] for q in busy), len(wrong)
    print("%-8s %s" % (solver.name, ", ".join("%s %d" % pair for pair in zip(COLUMNS, numbers))), flush=True)
    for sheet, interval, _ in wrong[:1]:
        print("interval %d of\n%s" % (interval, ref.sheet_text(sheet).decode()), flush=True)
    return not wrong


def main():
    count = int(sys.argv[1]) if len(sys.argv) > 1 else 210
    seed = int(sys.argv[2]) if len(sys.argv) > 2 else 2026
    asked = list(questions(count, seed))
    named = [s for s in solvers.SOLVERS if s.installed() and s.name in (sys.argv[3:] or s.name)]
    sys.exit(0 if named and all([check(solver, asked) for solver in named]) else 1)


main()
