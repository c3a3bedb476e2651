#!/usr/bin/env python3
"""Times every interval question of generated 24-operation loops, and the same questions on general solvers.

    compare.py times [SHEETS [FAMILY ..]]              the product alone: each interval that leastplan asks about
    compare.py solvers [SHEETS [SEED [NAME ..]]]       beside the solvers that are installed

A NAME is a family or a solver; without one of a kind all of that kind are taken.

All times are processor time. The product is called through its C archive in one process (bench/times.c), so its
times have no start-up in them; they are the least of five runs. From a solver's time that of the same solver on a
question with nothing to do is taken off (bench/solvers.py). Solvers decide feasibility only, and are asked only
from the greater of the two bounds to the least interval: below the bounds counting or a loop of edges refuses at
once. The product gives the first plan. Of a whole sheet the product's time is that of all intervals from 1 on, a
solver's that of the questions it was asked.
"""

import statistics
import sys

import loops
import measure
import solvers
from measure import counted, milliseconds, percentile
from reference import resource_bound, sheet_text


def from_the_bounds(made, rows):
    """(sheet, row) of each question at an interval that neither bound refuses."""
    return [
        (sheet, row)
        for sheet, of_sheet in zip(made, rows)
        for row in of_sheet
        if row[1] != 5 and row[0] >= resource_bound(sheet)
    ]


def times(count, families):
    print(
        "| family | sheets | intervals | median / 95 % / greatest, ms | from the bounds up | the same, ms "
        "| nodes: 95 % / most | over 1 s |"
    )
    print("|---|---|---|---|---|---|---|---|")
    program = measure.times_program()
    for family in families:
        made = [loops.sheet_of(family, seed) for seed in range(count)]
        texts = [sheet_text(s) for s in made]
        rows = measure.least_rows(program, texts, measure.search_nodes(program, texts))
        took = [row[2] for of_sheet in rows for row in of_sheet]
        hard = [row for _, row in from_the_bounds(made, rows)]
        nodes = counted([row[3] for row in hard if len(row) > 3])
        cells = family, count, len(took), milliseconds(took), len(hard), milliseconds([row[2] for row in hard]), nodes
        print("| %s | %d | %d | %s | %d | %s | %s | %d |" % (*cells, sum(t > 1 for t in took)), flush=True)


def beside(count, seed, families, present):
    program = measure.times_program()
    for family in families:
        made = [loops.sheet_of(family, seed + k) for k in range(count)]
        rows = measure.least_rows(program, [sheet_text(s) for s in made])
        asked = from_the_bounds(made, rows)
        own = [row[2] for _, row in asked]
        whole = {id(s): sum(row[2] for row in of_sheet) for s, of_sheet in zip(made, rows)}
        whole = {key: whole[key] for key in dict.fromkeys(id(s) for s, _ in asked)}
        print("%s: %d questions, %d whole sheets" % (family, len(own), len(whole)))
        print("  leastplan  %s; whole sheets %s" % (milliseconds(own), milliseconds(list(whole.values()))), flush=True)
        for solver in present:
            compare_one(solver, asked, own, whole)


def compare_one(solver, asked, own, whole):
    """own: the product's seconds for each question; whole: for each sheet with one, from interval 1 up."""
    took, off, wrong, late, sums = [], [], 0, 0, dict.fromkeys(whole, 0)
    for sheet, (interval, answer, _) in asked:
        said, seconds, start_up = solver.solve(sheet, interval)
        late += said == "none"
        wrong += said != "none" and (said == "sat") != (answer == 0)
        took.append(max(1e-6, seconds - start_up))
        sums[id(sheet)] += took[-1]
        off.append(start_up)
    row = solver.name, against(took, own), against(list(sums.values()), list(whole.values()))
    form = "  %-9s  %s; whole sheets %s; start-up %.1f; past the limit %d, other answers %d"
    print(form % (*row, 1000 * statistics.median(off), late, wrong), flush=True)


def against(took, own):
    """The times, and their ratios to the product's at the median and at 95 %."""
    ratios = statistics.median(took) / statistics.median(own), percentile(took, 0.95) / percentile(own, 0.95)
    return "%s, ratios %.1f / %.1f" % (milliseconds(took), *ratios)


def main():
    numbers = [int(w) for w in sys.argv[2:] if w.isdigit()]
    families = [w for w in sys.argv[2:] if w in loops.FAMILIES] or loops.FAMILIES
    named = [s for s in solvers.SOLVERS if s.name in sys.argv[2:]] or solvers.SOLVERS
    if sys.argv[1:2] == ["times"]:
        times(numbers[0] if numbers else 200, families)
    elif sys.argv[1:2] == ["solvers"]:
        count, seed = numbers[0] if numbers else 20, numbers[1] if len(numbers) > 1 else 0
        beside(count, seed, families, [s for s in named if s.installed()])
    else:
        sys.exit(__doc__)


main()
