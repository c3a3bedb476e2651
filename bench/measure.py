"""What the benchmarks share: the product's times and search nodes through its C archive; sums of numbers."""

import os
import shutil
import statistics
import subprocess
import sys
import tempfile

HERE = os.path.dirname(os.path.abspath(__file__))
sys.path.insert(0, os.path.join(HERE, "..", "tests"))

import product
from stored import framed

BUILT = os.path.join(product.ROOT, "target", "tests")
NO_INTERVAL = 4
RUNS = 5


def times_program(archive=None, name="times"):
    """bench/times.c over an archive, the project's own where none is given. Not position independent, so that gdb finds
    the functions before it runs."""
    os.makedirs(BUILT, exist_ok=True)
    out = os.path.join(BUILT, name)
    include = os.path.join(product.ROOT, "include")
    source = os.path.join(HERE, "times.c")
    words = ["gcc", "-O2", "-no-pie", "-I", include, "-o", out, source, archive or product.archive()]
    subprocess.run(words, check=True)
    return out


def rows_of(program, texts, extra=(), words=()):
    """For each sheet its rows (interval, answer, seconds, what the program says besides), for intervals up to the cap.

    extra: a number for each line that the program prints, appended to its row. words: for the program.
    """
    done = subprocess.run([program, *words], input=framed(texts), stdout=subprocess.PIPE, check=True)
    rows = [[] for _ in texts]
    for k, line in enumerate(done.stdout.decode().splitlines()):
        sheet, interval, answer, nanoseconds, *more = line.split()
        if int(answer) != NO_INTERVAL:
            row = (int(interval), int(answer), int(nanoseconds) / 1e9, *more)
            rows[int(sheet)].append(row + tuple(extra[k : k + 1]))
    return rows


def least_rows(program, texts, extra=()):
    """The same, with the least seconds of several runs: what else the machine does slows single runs down."""
    every = [rows_of(program, texts, extra) for _ in range(RUNS)]
    return [
        [(*row[:2], min(one[k][2] for one in of_sheet), *row[3:]) for k, row in enumerate(of_sheet[0])]
        for of_sheet in zip(*every)
    ]


def search_nodes(program, texts):
    """The calls of the search in each call of the product, in order; gdb counts them. Nothing where there is no gdb."""
    if not shutil.which("gdb"):
        return []
    with tempfile.TemporaryDirectory() as folder:
        sheets, counts = os.path.join(folder, "sheets"), os.path.join(folder, "counts")
        with open(sheets, "wb") as out:
            out.write(framed(texts))
        settings = "python SHEETS, COUNTS = %r, %r" % (sheets, counts)
        words = ["gdb", "-q", "-batch", "-ex", settings, "-x", os.path.join(HERE, "count_nodes.py"), program]
        subprocess.run(words, stdout=subprocess.DEVNULL, stderr=subprocess.DEVNULL, check=True)
        with open(counts) as lines:
            return [int(line) for line in lines]


def percentile(values, share):
    ordered = sorted(values)
    return ordered[min(len(ordered) - 1, int(share * len(ordered)))]


def in_milliseconds(seconds):
    """Three digits, or a whole number."""
    return "%.3g" % (1000 * seconds) if seconds < 0.9995 else "%.0f" % (1000 * seconds)


def milliseconds(values):
    """Median, 95 % and greatest of some seconds."""
    if not values:
        return "-"
    return " / ".join(map(in_milliseconds, (statistics.median(values), percentile(values, 0.95), max(values))))


def counted(values):
    """95 % and greatest of some counts."""
    return "%d / %d" % (percentile(values, 0.95), max(values)) if values else "-"
