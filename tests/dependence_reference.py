#!/usr/bin/env python3
"""Inputs and expected outputs for crates/test_dependence, by enumeration of walks.

Independent of the Rattle crates: walks are lists of edge numbers, tried by length and, within a
length, in the order of the lists, and every answer is a sum or a greatest over them. Nothing is
relaxed and no table is kept. So it is slow, and for small graphs only. Question 4 goes by the
sheet's cap, and for the total of an edge, which knows no sheet, by the greatest cap.

Why walks of at most N edges are enough: a longer walk passes an operation twice. What lies between
is a closed walk. If none of those is bad, cutting it out leaves a sum that is no smaller; if one is
bad, a shorter bad closed walk exists.

As a program:  dependence_reference.py      writes crates/test_dependence/stdin and stdout
               dependence_reference.py -n   compares them with what stands there
"""

import itertools
import os
import random
import sys

from reference import latency, plain_sheet, resource_bound, sheet_text, window, with_busy, with_windows

INTERVALS = (0, 1, 2, 3, 4, 5, 6, 64, 65)
GREATEST_CAP = 64
FLOOR = 16384
SEED = 20020

# ---- the rules


class Graph:
    """Latencies of the operations, the clocks before which they cannot start, and edges (from, to, delay, distance)."""

    def __init__(self, latency, floor, edges):
        self.latency, self.floor, self.edges = latency, floor, edges
        self.n = len(latency)

    def total(self, k, interval):
        i, _, d, b = self.edges[k]
        return self.latency[i] + d - b * interval

    def walks(self, size):
        """Every walk of this many edges, in the order of the lists."""
        if size == 0:
            return [()]
        longer = []
        for walk in self.walks(size - 1):
            for k, edge in enumerate(self.edges):
                if not walk or self.edges[walk[-1]][1] == edge[0]:
                    longer.append(walk + (k,))
        return sorted(longer)

    def sum(self, walk, interval):
        return sum(self.total(k, interval) for k in walk)

    def ends(self, walk):
        return self.edges[walk[0]][0], self.edges[walk[-1]][1]

    def all_walks(self):
        """Every walk of 1 to N edges, shorter ones first."""
        if not hasattr(self, "kept"):
            self.kept = [w for size in range(1, self.n + 1) for w in self.walks(size)]
        return self.kept

    def first_bad(self, interval):
        for walk in self.all_walks():
            i, j = self.ends(walk)
            if i == j and self.sum(walk, interval) > 0:
                return walk
        return None

    def meets(self, starts, interval):
        return all(
            starts[i] + self.total(k, interval) <= starts[j]
            for k, (i, j, _, _) in enumerate(self.edges)
        )

    def earliest(self, floor, interval):
        """The greatest of a floor and of a floor and a walk from it."""
        starts = list(floor)
        for walk in self.all_walks():
            i, j = self.ends(walk)
            starts[j] = max(starts[j], floor[i] + self.sum(walk, interval))
        assert self.meets(starts, interval)
        return starts

    def separation(self, i, j, interval):
        sums = [self.sum(w, interval) for w in self.all_walks() if self.ends(w) == (i, j)]
        return str(max(sums)) if sums else "x"

    def lag(self, i, interval):
        floor = [FLOOR if v == i else 0 for v in range(self.n)]
        return [t - FLOOR for t in self.earliest(floor, interval)]

    def bound(self, cap):
        for interval in range(1, cap + 1):
            if self.first_bad(interval) is None:
                return 0, interval
        return 8, 0


# ---- what the program prints


def numbers(values):
    return ",".join(str(v) for v in values)


def totals(graph, interval):
    """Answer and total of each edge, and 3 for a graph with an edge too many."""
    for k in range(len(graph.edges)):
        yield from (0, graph.total(k, interval)) if 1 <= interval <= GREATEST_CAP else (4, 0)
    yield from (3, 0)


def at_interval(sheet, graph, interval):
    out = [f"interval={interval}", "totals=" + numbers(totals(graph, interval))]
    refused = 3 if sheet is None else 4 if not 1 <= interval <= sheet.cap else 0
    if refused:
        return out + [f"walk={refused}", f"earliest={refused}"]
    loop = graph.first_bad(interval)
    if loop is not None:
        return out + ["walk=" + numbers((5,) + loop), "earliest=" + numbers((5,) + loop)]
    n = range(graph.n)
    out += ["walk=0", "earliest=" + numbers([0] + graph.earliest(graph.floor, interval))]
    out += ["separation=" + numbers(graph.separation(i, j, interval) for j in n) for i in n]
    out += ["lag=" + numbers(graph.lag(i, interval)) for i in n]
    return out


def graph_of(sheet):
    n = range(len(sheet.ops))
    return Graph([latency(sheet, i) for i in n], [window(sheet, i)[0] for i in n], sheet.edges)


def expected(answer, sheet):
    """The lines for one sheet; the answer is that of reading it. A refused sheet (None) is all 0: out of range."""
    if sheet is None:
        graph, bounds = Graph([], [], []), [(3, 0), (3, 0)]
    else:
        graph = graph_of(sheet)
        bounds = [graph.bound(sheet.cap), (0, resource_bound(sheet))]
    out = [f"answer={answer}", "recurrence=" + numbers(bounds[0]), "resource=" + numbers(bounds[1])]
    for interval in INTERVALS:
        out += at_interval(sheet, graph, interval)
    return out


# ---- the sheets


def chosen():
    """Sheets made for one thing each."""
    one, two = [(0, 1)], [(0, 1), (2, 0)]
    yield 4, 4, [(1, 1), (0, 1)], [0, 1, 0], [(0, 1, 0, 0), (1, 2, 0, 0), (2, 0, 0, 2)]  # case A
    yield 5, 5, [(1, 1)], [0, 0], [(0, 1, 3, 0), (1, 0, -5, 0)]
    yield 1, 3, one, [0], [(0, 0, 0, 0)]  # bad at every interval
    yield 1, 3, [(1, 0)], [0], [(0, 0, 0, 0)]  # a sum of exactly 0
    yield 1, 1, one, [0], []  # no edges
    yield 9, 9, one, [0, 0, 0], []  # no edges, no walks
    yield 9, 9, one, [0, 0], [(0, 1, 0, 0), (0, 1, 2, 0), (0, 1, -3, 0), (1, 0, 0, 8)]  # parallel edges
    yield 9, 9, one, [0, 0], [(0, 0, 5, 1), (0, 0, 2, 1), (1, 1, -1, 0)]  # self edges
    yield 9, 9, one, [0, 0], [(1, 0, 0, 0), (0, 1, 0, 0), (1, 0, 0, 0)]  # ties between shortest loops
    yield 9, 9, one, [0, 0, 0], [(2, 1, 0, 0), (1, 2, 0, 0), (0, 0, 0, 1), (1, 0, 9, 0)]  # a self loop, at L = 1 alone
    yield 9, 9, one, [0, 0, 0], [(0, 1, 0, 0), (1, 2, 0, 0), (2, 0, 0, 0), (2, 2, 0, 0)]  # shorter loop, greater number
    yield 9, 9, one, [0, 0, 0], [(1, 2, 0, 0), (2, 1, -9, 0), (0, 1, 4, 0), (1, 0, -5, 0)]  # sums exactly 0
    yield 9, 64, one, [0, 0], [(0, 1, 62, 0), (1, 0, 64, 2)]  # a bound of 64
    yield 9, 63, one, [0, 0], [(0, 1, 62, 0), (1, 0, 64, 2)]  # one below it: 8
    yield 9, 64, [(0, 32)], [0], [(0, 0, 64, 8)]  # the ends of the ranges
    yield 9, 64, [(0, 0)], [0, 0], [(0, 1, -64, 8), (1, 0, -64, 8)]
    yield 9, 9, two, [0, 1, 0], [(1, 0, 0, 0), (0, 1, -1, 0), (1, 2, 1, 1), (2, 1, 0, 0)]
    yield 1, 2, [(8, 1), (2, 2), (0, 0)], [0] * 17 + [1] * 4 + [2] * 3, []  # a resource bound above the cap


def random_sheets(pick, count):
    for _ in range(count):
        n = pick.randint(1, 4)
        types = [(pick.randint(0, 2), pick.choice((0, 1, 1, 2, 3))) for _ in range(pick.randint(1, 3))]
        kinds = [pick.randrange(len(types)) for _ in range(n)]
        edges = []
        for _ in range(pick.randint(0, 6)):
            i, j = pick.randrange(n), pick.randrange(n)
            if edges and pick.random() < 0.2:
                i, j = edges[-1][:2]  # parallel
            d = pick.choice((0, 0, 1, 2, -1, -2, -3, pick.randint(-64, 64)))
            b = pick.choice((0, 0, 1, 1, 2, 3, pick.randint(0, 8)))
            if j <= i and pick.random() < 0.7:
                b = max(b, 1)
            edges.append((i, j, d, b))
        yield pick.randint(1, 128), pick.choice((1, 2, 3, 4, 5, GREATEST_CAP)), types, kinds, edges


def changed(old, new, horizon=1):
    """The text of a sheet with one operation and one edge, in which a line is another."""
    text = sheet_text(plain_sheet(horizon, 1, [(0, 0)], [0], [(0, 0, 0, 0)])).decode()
    assert text.count(old) == 1
    return text.replace(old, new)


def without_edges(text):
    return text[: text.index("edges=")] + "edges=0\n"


REFUSED = [
    (2, ""),
    (2, "horizon=1\n"),
    (2, without_edges(changed("horizon=1", "horizon=01"))),
    (3, without_edges(changed("horizon=1", "horizon=129"))),
    (3, changed("edge=0,0,0,0", "edge=0,0,-65,0")),
    (3, changed("edge=0,0,0,0", "edge=0,1,0,0")),
    (2, changed("edge=0,0,0,0", "edge=0,0,-0,0")),
    (1, "horizon=1\n" + "x" * 4087),
]

REFUSED_WINDOWS = [
    (16, changed("op=0,0,8", "op=0,1,0", 9)),
    (16, changed("op=0,0,8", "op=0,8,7", 9)),
    (3, changed("op=0,0,8", "op=0,9,8", 9)),
    (3, changed("op=0,0,8", "op=0,0,9", 9)),
    (3, changed("op=0,0,8", "op=1,1,0", 9)),
]


def late_results():
    """No plan, as results come after the horizon; starts, separations and bounds are as in any longer one."""
    yield 1, 3, [(1, 2)], [0], []
    yield 2, 3, [(1, 3)], [0, 0], [(0, 1, 0, 0), (1, 0, 0, 2)]
    yield 3, 6, [(2, 32), (0, 4)], [0, 0, 0, 1], [(0, 1, 0, 0), (1, 3, -31, 0), (3, 0, 0, 8)]


def floors():
    """(fields, windows): starts that begin at clocks above 0, and how far that is carried along."""
    chain, ring = [(0, 1, 0, 0), (1, 2, 0, 0)], [(0, 1, 0, 0), (1, 2, 0, 0), (2, 0, 0, 2)]
    types, kinds = [(1, 1), (0, 2)], [0, 1, 0]
    yield (9, 4, types, kinds, chain), [(5, 8), (0, 8), (0, 8)]  # the first carries the others along
    yield (9, 4, types, kinds, chain), [(0, 8), (5, 5), (0, 8)]  # one in the midst carries the last alone
    yield (9, 4, types, kinds, chain), [(0, 8), (0, 8), (8, 8)]  # the last is carried by nothing
    yield (9, 4, types, kinds, chain), [(2, 3), (2, 3), (4, 8)]  # each floor is below what the first one asks
    yield (9, 4, types, kinds, chain), [(8, 8), (0, 1), (0, 0)]  # starts past hi and past the horizon
    yield (9, 4, types, kinds, ring), [(0, 8), (0, 8), (7, 8)]  # the last carries the first, back over two iterations
    yield (9, 4, types, kinds, ring), [(0, 0), (4, 4), (0, 8)]  # at 1 a loop, whatever the windows
    yield (128, 64, [(0, 32)], [0, 0], [(0, 1, 64, 0)]), [(127, 127), (0, 127)]  # the ends of the ranges
    yield (128, 64, [(0, 32)], [0, 0], [(0, 1, -64, 8)]), [(127, 127), (0, 0)]
    yield (128, 64, [(0, 0)], [0], [(0, 0, 0, 0)]), [(127, 127)]  # a sum of exactly 0
    yield (9, 9, types, [0, 0], []), [(8, 8), (3, 3)]  # no edges
    yield (9, 9, types, [0, 0], [(0, 1, 3, 0), (0, 1, 5, 1), (1, 0, -9, 0)]), [(2, 8), (4, 8)]  # parallel edges


def random_windows(pick, count):
    for fields in random_sheets(pick, count):
        last = fields[0] - 1
        ends = [(0, last, pick.randint(0, last), pick.randint(0, min(last, 6))) for _ in fields[3]]
        yield fields, [sorted(pick.choice(some) for _ in range(2)) for some in ends]


def busy_units():
    """(fields, K of each type): what K asks of the resource bound, and nothing else asks K of the rest."""
    ring = [(0, 1, 0, 0), (1, 2, 0, 0), (2, 0, 0, 2)]
    for k in (1, 2, 3, 32):
        yield (4, 4, [(1, 1), (0, 1)], [0, 1, 0], ring), [k, 32]  # case A; the unlimited type has no part in it
        yield (9, 9, [(2, 1)], [0] * 3, []), [k]  # rounded up
        yield (9, 9, [(8, 1)], [0], []), [k]  # K alone decides
        yield (9, 9, [(1, 1), (3, 1)], [1] * 4, []), [32, k]  # no operations of the busier type
    yield (1, 1, [(1, 0)], [0] * 24, []), [32]  # the greatest bound, 768
    yield (9, 9, [(0, 1)], [0] * 5, []), [32]  # no limited type
    yield (1, 1, [(7, 1), (5, 1)], [0] * 15 + [1] * 9, []), [3, 4]  # 45 / 7 and 36 / 5
    yield (1, 1, [(7, 1), (5, 1)], [0] * 14 + [1] * 10, []), [4, 4]  # 56 / 7 and 40 / 5, nothing to round


def random_busy(pick, count):
    for fields in random_sheets(pick, count):
        yield fields, [pick.choice((1, 2, 3, 4, 7, 31, 32)) for _ in fields[2]]


REFUSED_BUSY = [
    (3, changed("type=0,0,1", "type=0,0,0")),
    (3, changed("type=0,0,1", "type=1,0,33")),
    (2, changed("type=0,0,1", "type=0,0")),
    (2, changed("type=0,0,1", "type=0,0,01")),
    (2, changed("type=0,0,1", "type=0,0,1,1")),
]


def pieces():
    """Each piece with the lines that are due for it."""
    for fields in itertools.chain(chosen(), random_sheets(random.Random(SEED), 150)):
        yield accepted(plain_sheet(*fields))
    for answer, piece in REFUSED:
        yield piece, expected(answer, None)
    for fields in late_results():
        yield accepted(plain_sheet(*fields))
    for fields, windows in itertools.chain(floors(), random_windows(random.Random(SEED + 1), 60)):
        yield accepted(with_windows(plain_sheet(*fields), windows))
    for answer, piece in REFUSED_WINDOWS:
        yield piece, expected(answer, None)
    for fields, busy in itertools.chain(busy_units(), random_busy(random.Random(SEED + 2), 40)):
        yield accepted(with_busy(plain_sheet(*fields), busy))
    for answer, piece in REFUSED_BUSY:
        yield piece, expected(answer, None)


def accepted(sheet):
    return sheet_text(sheet).decode(), expected(0, sheet)


def main():
    there = os.path.join(os.path.dirname(os.path.abspath(__file__)), "..", "crates", "test_dependence")
    stdin, stdout = "", ""
    for number, (piece, lines) in enumerate(pieces()):
        stdin += f"bytes={len(piece)}\n{piece}"
        stdout += "".join(line + "\n" for line in [f"piece={number}"] + lines)
    made = {"stdin": stdin, "stdout": stdout}
    if sys.argv[1:] == ["-n"]:
        same = all(open(os.path.join(there, name)).read() == made[name] for name in made)
        print("same" if same else "different")
        return 0 if same else 1
    for name in made:
        with open(os.path.join(there, name), "w") as f:
            f.write(made[name])
    print(f"{number + 1} pieces, {len(stdin)} bytes in, {len(stdout)} bytes out")
    return 0


if __name__ == "__main__":
    sys.exit(main())
