#!/usr/bin/env python3
"""Times the same questions by two builds in turn on one machine.

    before_after.py BEFORE AFTER [SHEETS [SEED [FAMILY ..]]]

BEFORE and AFTER are C archives (crates/host/out/libhost.a of two clones, as rt lib makes them). For each family of
bench/loops.py two rows: every interval that leastplan asks about, and whole sheets, from 1 to the first plan
or to the cap. A time is processor time, the least of several runs, one of each build in turn. A question that takes
longer than the limit is left, and with it the rest of its sheet. A sheet that has such a one, or that takes long, is
asked about once. Both must give the same bytes wherever both answered.
"""

import os
import statistics
import sys

import loops
import measure
from measure import in_milliseconds, percentile
from reference import sheet_text

LIMIT = 2  # seconds a question
LONG = 0.5  # seconds a sheet
RUNS = 7
LEFT = -1  # the answer of a question that was left
NO_END = float("inf")
NAMES = "before", "after"


def some_rows(program, texts, numbers):
    """{number of the sheet: its rows} for the sheets with these numbers."""
    return dict(zip(numbers, measure.rows_of(program, [texts[k] for k in numbers], words=[str(LIMIT)])))


def runs_in_turn(programs, texts):
    """For each build {number of the sheet: its rows}, with the least seconds."""
    best = [some_rows(program, texts, range(len(texts))) for program in programs]
    again = [k for k in range(len(texts)) if not any(is_long(rows[k]) for rows in best)]
    for _ in range(RUNS - 1 if again else 0):
        for rows, program in zip(best, programs):
            for k, of_sheet in some_rows(program, texts, again).items():
                rows[k] = [least(a, b) for a, b in zip(rows[k], of_sheet)]
    return best


def least(row, other):
    return (*row[:2], min(row[2], other[2]), *row[3:])


def is_left(of_sheet):
    return of_sheet[-1][1] == LEFT


def is_long(of_sheet):
    return is_left(of_sheet) or sum(map(seconds, of_sheet)) > LONG


def compare_answers(family, first, second):
    """Interval, answer and checksum of the text, up to where either build was left."""
    for k, rows in first.items():
        for a, b in zip(rows, second[k]):
            if LEFT not in (a[1], b[1]) and (a[:2], a[3:]) != (b[:2], b[3:]):
                sys.exit("other answers: sheet %d of %s, interval %d" % (k, family, a[0]))


def asked_of_both(first, second):
    """The seconds of each question that both were asked, for each build."""
    pairs = [pair for k, rows in first.items() for pair in zip(rows, second[k])]
    return [[seconds(row) for row in column] for column in zip(*pairs)]


def seconds(row):
    return NO_END if row[1] == LEFT else row[2]


def whole(rows):
    """The seconds of each whole sheet; without end where a question was left."""
    return [sum(map(seconds, of_sheet)) for of_sheet in rows.values()]


def shown(took):
    return "over %d s" % LIMIT if took == NO_END else in_milliseconds(took)


def cells(took):
    """Median, 95 % and greatest in ms."""
    return " / ".join(shown(s) for s in (statistics.median_high(took), percentile(took, 0.95), max(took)))


def row_of(family, what, before, after, left):
    """One row; the sums and their ratio are those of what both answered."""
    ended = [(a, b) for a, b in zip(before, after) if NO_END not in (a, b)]
    sums = [sum(column) for column in zip(*ended)] or [0, 0]
    ratio = "%.2f" % (sums[1] / sums[0]) if ended else "-"
    numbers = family, what, len(before), cells(before), cells(after), *map(shown, sums), ratio, *left
    print("| %s | %s | %d | %s | %s | %s / %s | %s | %d / %d |" % numbers, flush=True)
    return sums


def family_rows(programs, family, count, seed):
    texts = [sheet_text(loops.sheet_of(family, seed + k)) for k in range(count)]
    first, second = runs_in_turn(programs, texts)
    compare_answers(family, first, second)
    left = [sum(is_left(rows) for rows in build.values()) for build in (first, second)]
    row_of(family, "intervals", *asked_of_both(first, second), left)
    return row_of(family, "whole sheets", whole(first), whole(second), left)


def main():
    if len(sys.argv) < 3:
        sys.exit(__doc__)
    programs = [measure.times_program(*build) for build in zip(map(os.path.abspath, sys.argv[1:3]), NAMES)]
    count = int(sys.argv[3]) if len(sys.argv) > 3 else 60
    seed = int(sys.argv[4]) if len(sys.argv) > 4 else 0
    print("| family | | number | before: median / 95 % / greatest, ms | after | sums | ratio | sheets left |")
    print("|---|---|---|---|---|---|---|---|")
    total = [0, 0]
    for family in sys.argv[5:] or loops.FAMILIES:
        total = [a + b for a, b in zip(total, family_rows(programs, family, count, seed))]
    ratio = total[1] / total[0] if total[0] else 0
    print("whole sheets that both ended: %s / %s ms in all, ratio %.3f" % (*map(shown, total), ratio))


main()
