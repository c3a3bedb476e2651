#!/usr/bin/env python3
"""What leastplan prints for a sheet too large to enumerate, by the plain search (plain.rs): other code with the same
rules of narrowing as the product, so the clauses of bench/first_plan.py are the independent side. Answers and starts
are the plain search's; the loop of 5 and the instances come from the reference, which also holds each plan to the rules.

As a program:  plain_plan.py < SHEET
"""

import subprocess
import sys

import ratio  # finds tests/ too
import reference as ref
from stored import framed


def rows_of(program, text):
    """{interval: (answer, starts)}"""
    done = subprocess.run([program], input=framed([text]), stdout=subprocess.PIPE, check=True)
    rows = [line.split(" ") for line in done.stdout.decode().splitlines()]
    return {int(row[1]): (int(row[2]), [int(t) for t in row[5].split(",") if t]) for row in rows}


def plan_from(rows):
    def plan_at(sheet, interval):
        answer, starts = rows[interval]
        if answer == 5:
            return 5, [], [], ref.first_bad_walk(sheet, interval)
        if answer:
            return answer, [], [], []
        units = ref.first_instances(sheet, interval, starts)
        assert ref.is_plan(sheet, interval, starts, units)
        return 0, starts, units, []

    return plan_at


def main():
    text = sys.stdin.buffer.read()
    answer, sheet = ref.read_sheet(text)
    assert answer == 0
    ref.plan_at = plan_from(rows_of(ratio.plain_program(), text))
    sys.stdout.buffer.write(ref.report(sheet))


if __name__ == "__main__":
    main()
