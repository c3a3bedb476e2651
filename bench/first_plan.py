#!/usr/bin/env python3
"""What leastplan prints for a sheet too large to enumerate, by cadical: a second opinion for examples/.

Feasible or not, and then the least start of each operation in turn, are asked of the SAT solver; that
there is no bad closed walk is seen by relaxing, an interval below the resource bound has no plan by
counting, and the loop of 5 and the instances come from the reference. As a program:  first_plan.py < SHEET
"""

import os
import subprocess
import sys

sys.path.insert(0, os.path.join(os.path.dirname(os.path.abspath(__file__)), "..", "tests"))

import encodings_of_plans as encodings
import reference as ref

SATISFIABLE, UNSATISFIABLE = 10, 20  # exit statuses of cadical


class Question:
    """The plans at one interval, with the starts that were fixed so far."""

    def __init__(self, sheet, interval):
        self.last = sheet.horizon - 1
        self.head, *self.clauses = encodings.cnf(sheet, interval).splitlines()

    def at_most(self, i, t):
        """The clauses of "start of i is at most t"; encodings.cnf numbers these literals first."""
        return [] if t >= self.last else ["%d 0" % (i * self.last + t + 1)]

    def holds(self, more):
        rows = self.clauses + more
        head = "%s %d" % (self.head.rsplit(" ", 1)[0], len(rows))
        question = "\n".join([head] + rows) + "\n"
        done = subprocess.run(["cadical", "-q", "-n"], input=question, text=True, stdout=subprocess.DEVNULL)
        if done.returncode not in (SATISFIABLE, UNSATISFIABLE):
            sys.exit("first_plan.py: cadical gave no answer")
        return done.returncode == SATISFIABLE


def first_starts(sheet, interval):
    question, starts = Question(sheet, interval), []
    if interval < ref.resource_bound(sheet) or not question.holds([]):
        return []
    for i in range(len(sheet.ops)):
        low, high = encodings.first_start(sheet, i), encodings.last_start(sheet, i)
        while low < high:
            middle = (low + high) // 2
            if question.holds(question.at_most(i, middle)):
                high = middle
            else:
                low = middle + 1
        starts.append(low)
        question.clauses += question.at_most(i, low)
    return starts


def starts_exist(sheet, interval):
    """Have the dependences alone some starts, windows aside? Relaxing from 0 comes to rest within N rounds if so."""
    starts = [0] * len(sheet.ops)
    for _ in range(len(sheet.ops) + 1):
        before = list(starts)
        for i, j, w in encodings.differences(sheet, interval):
            starts[j] = max(starts[j], starts[i] + w)
        if starts == before:
            return True
    return False


def plan_at(sheet, interval):
    if not starts_exist(sheet, interval):
        return 5, [], [], ref.first_bad_walk(sheet, interval)
    starts = first_starts(sheet, interval)
    if not starts:
        return 6, [], [], []
    units = ref.first_instances(sheet, interval, starts)
    assert ref.is_plan(sheet, interval, starts, units)
    return 0, starts, units, []


def main():
    answer, sheet = ref.read_sheet(sys.stdin.buffer.read())
    assert answer == 0
    ref.plan_at = plan_at
    sys.stdout.buffer.write(ref.report(sheet))


if __name__ == "__main__":
    main()
