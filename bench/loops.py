#!/usr/bin/env python3
"""Generators of 24-operation loop sheets for the benchmarks, from a seed.

layered      layer by layer as in the GeMS paper (source 002): one type with two instances and latency 1,
             forward edges with probability 0.05, backedges with 0.005 and distance 1, delays 0
dense        the same with probabilities 0.2 and 0.02, which gives as many edges an operation as the paper's graphs
motor        transforms, controllers and filters of motor control, with integrators, outer feedback and
             outputs due within a time
deadlines    loops whose operations must follow others within a time, by edges with a negative delay
packing      as many operations of each type as its instances hold at the wanted interval, starts confined
recurrences  many backedges of distance 1 to 3
windows      the loops of motor without the edges by which outputs are due; instead ports settle late and outputs have
             a last clock
busy         loops with backedges and some deadlines over one to three types, most of whose units stay busy for 2 to 7
             slots; the horizon has room
busy_tight   the same with a horizon that takes the chains of edges, or an interval if that is longer, and a quarter of
             an interval more
busy_blocks  as many operations of a busy type as its instances hold at some interval, A times L / K rounded down,
             most of them in blocks of two or more that keep the distances they have in one plan there
rings        )
rivals       ) without a plan for a reason that a search by starts is slow to see: bench/impossible.py
tilings      )

In every family but windows, rings and rivals an operation may start in the whole horizon, and but in those of busy
units K is 1.

As a program:  loops.py FAMILY SEED   prints one sheet.
"""

import os
import random
import sys

sys.path.insert(0, os.path.join(os.path.dirname(os.path.abspath(__file__)), "..", "tests"))

from impossible import rings, rivals, tilings
from reference import kind, latency, plain_sheet, resource_bound, sheet_text, with_busy, with_horizon, with_windows

OPERATIONS = 24
MOST_EDGES = 96
MOST_CAP = 64


def earliest(floor, latencies, edges):
    """Starts over a floor by the forward edges alone; every edge leads to a greater operation number."""
    starts = list(floor)
    for i, j, d, _ in sorted(edges):
        starts[j] = max(starts[j], starts[i] + latencies[i] + d)
    return starts


def forward_edges(sheet):
    return [e for e in sheet.edges if e[0] < e[1] and e[3] == 0]


def forward_starts(sheet, floor):
    latencies = [latency(sheet, i) for i in range(len(sheet.ops))]
    return earliest(floor, latencies, forward_edges(sheet))


def span(sheet):
    """Clocks from the first start to the last result along the forward edges."""
    starts = forward_starts(sheet, [0] * len(sheet.ops))
    return max(t + latency(sheet, i) for i, t in enumerate(starts))


def fitted(rng, types, kinds, edges, room):
    """The sheet with a horizon that its span and its fullest type need and some room; cap past the resource bound."""
    return with_room(rng, plain_sheet(1, 1, types, kinds, edges[:MOST_EDGES]), room)


def with_room(rng, sheet, room):
    bound = resource_bound(sheet)
    sheet.cap = min(MOST_CAP, bound + 16)
    return with_horizon(sheet, min(128, max(span(sheet), bound) + rng.randint(0, room)))


def layers_of(rng, forward, backward):
    layers = rng.choice([24, 12, 8, 6, 4, 3, 2, 1])
    depth = [i * layers // OPERATIONS for i in range(OPERATIONS)]
    pairs = [(i, j) for i in range(OPERATIONS) for j in range(OPERATIONS)]
    edges = [(i, j, 0, 0) for i, j in pairs if depth[i] < depth[j] and rng.random() < forward]
    starts = earliest([0] * OPERATIONS, [1] * OPERATIONS, edges)
    edges += [(i, j, 0, 1) for i, j in pairs if starts[i] > starts[j] and rng.random() < backward]
    return fitted(rng, [(2, 1)], [0] * OPERATIONS, edges, rng.choice([0, 4, 12]))


def layered(rng):
    return layers_of(rng, 0.05, 0.005)


def dense(rng):
    return layers_of(rng, 0.2, 0.02)


MULTIPLIER, ADDER, PORT = 0, 1, 2


class Loop:
    """Operations and edges of a motor-control loop, put together from its parts."""

    def __init__(self):
        self.ops, self.edges = [], []

    def op(self, kind, *sources):
        self.ops.append(kind)
        me = len(self.ops) - 1
        self.edges += [(s, me, 0, 0) for s in sources]
        return me

    def back(self, i, j, distance):
        self.edges.append((i, j, 0, distance))

    def rotation(self, x, y):
        a = self.op(ADDER, self.op(MULTIPLIER, x), self.op(MULTIPLIER, y))
        b = self.op(ADDER, self.op(MULTIPLIER, y), self.op(MULTIPLIER, x))
        return a, b

    def controller(self, x):
        error = self.op(ADDER, x)
        integral = self.op(ADDER, self.op(MULTIPLIER, error))
        self.back(integral, integral, 1)
        return self.op(ADDER, self.op(MULTIPLIER, error), integral)

    def low_pass(self, x):
        change = self.op(ADDER, x)
        out = self.op(ADDER, self.op(MULTIPLIER, change))
        self.back(out, change, 1)
        return out


def motor_loop(rng):
    """The sheet and the operations that give a signal."""
    loop = Loop()
    signals = [loop.op(PORT) for _ in range(rng.randint(1, 3))]
    while len(loop.ops) < OPERATIONS - 7:
        part = rng.choice(["rotation", "controller", "controller", "low_pass", "port"])
        x, y = rng.choice(signals), rng.choice(signals)
        if part == "rotation":
            signals += loop.rotation(x, y)
        elif part == "port":
            signals.append(loop.op(PORT, x))
        else:
            signals.append(getattr(loop, part)(x))
    while len(loop.ops) < OPERATIONS:
        signals.append(loop.op(rng.choice([MULTIPLIER, ADDER, PORT]), rng.choice(signals)))
    for _ in range(rng.randint(0, 3)):
        i, j = rng.choice(signals), rng.choice(signals)
        loop.back(max(i, j), min(i, j), rng.choice([1, 2, 2, 3]))
    types = [(rng.choice([1, 1, 2, 3]), rng.choice([2, 3, 4])), (rng.choice([1, 1, 2]), 1), (1, rng.choice([1, 2]))]
    return fitted(rng, types, loop.ops, loop.edges, rng.choice([0, 4, 16])), signals


def motor(rng):
    sheet, signals = motor_loop(rng)
    longest = span(sheet)
    for last in rng.sample(signals, 2):
        sheet.edges.append((last, 0, max(-64, -longest - rng.randint(0, 4)), 0))
    return sheet


def some_types(rng, count):
    return [(rng.choice([1, 1, 2, 3]), rng.choice([0, 1, 1, 2, 3])) for _ in range(count)]


def deadlines(rng):
    types = some_types(rng, rng.randint(1, 4))
    ops = [rng.randrange(len(types)) for _ in range(OPERATIONS)]
    edges = []
    for j in range(1, OPERATIONS):
        for i in rng.sample(range(j), min(j, rng.choice([0, 1, 1, 2]))):
            edges.append((i, j, rng.choice([0, 0, 1]), 0))
    for i, j, d, _ in list(edges):
        if rng.random() < 0.5:
            slack = types[ops[i]][1] + d + rng.randint(0, 4)
            edges.append((j, i, max(-64, -slack - types[ops[j]][1]), 0))
    return fitted(rng, types, ops, edges, rng.choice([2, 8]))


def packing(rng):
    interval = rng.choice([4, 6, 8, 12])
    types, ops = [], []
    while len(ops) < OPERATIONS and len(types) < 8:
        room = OPERATIONS - len(ops)
        a = rng.choice([a for a in (1, 2, 3) if a * interval <= room] or [1])
        types.append((a, rng.choice([0, 1, 2])))
        ops += [len(types) - 1] * min(room, a * interval)
    rng.shuffle(ops)
    edges = []
    for j in range(1, OPERATIONS):
        if rng.random() < 0.5:
            edges.append((rng.randrange(j), j, 0, 0))
    for _ in range(rng.randint(2, 8)):
        i, j = rng.sample(range(OPERATIONS), 2)
        edges.append((i, j, -rng.randint(2, interval + 2), 0))
    return fitted(rng, types, ops, edges, 4)


def recurrences(rng):
    types = some_types(rng, rng.randint(1, 3))
    ops = [rng.randrange(len(types)) for _ in range(OPERATIONS)]
    edges = []
    for j in range(1, OPERATIONS):
        edges.append((rng.randrange(max(0, j - 6), j), j, 0, 0))
    for _ in range(rng.randint(16, 60)):
        i, j = rng.randrange(OPERATIONS), rng.randrange(OPERATIONS)
        edges.append((max(i, j), min(i, j), rng.choice([0, 0, -1, 1]), rng.choice([1, 1, 2, 3])))
    return fitted(rng, types, ops, edges, rng.choice([4, 16]))


MOST_LATE = 8  # clocks


def settling(rng, sheet):
    """For each operation the first clock: some ports settle only after what they wait for is there."""
    first = [0] * len(sheet.ops)
    starts = forward_starts(sheet, first)
    for i, t in enumerate(starts):
        if kind(sheet, i) == PORT and rng.random() < 0.5:
            first[i] = t + rng.randint(1, MOST_LATE)
    return first


def last_clocks(rng, sheet, first):
    """For each operation the last clock: an output, for which no other waits, has one soon after its earliest start."""
    last = [sheet.horizon - 1] * len(sheet.ops)
    awaited = {i for i, *_ in forward_edges(sheet)}
    for i, t in enumerate(forward_starts(sheet, first)):
        if i not in awaited:
            last[i] = min(last[i], t + rng.randint(0, resource_bound(sheet)))
    return last


def windows(rng):
    sheet, _ = motor_loop(rng)
    first = settling(rng, sheet)
    sheet = with_horizon(sheet, min(128, sheet.horizon + MOST_LATE))
    return with_windows(sheet, list(zip(first, last_clocks(rng, sheet, first))))


MOST_BUSY_BOUND = 48  # so that the cap leaves some intervals past the bound
MOST_BLOCKS = 30  # slots that the blocks fill; with 48 the search runs away on one sheet of 100 (docs/PERFORMANCE.md)


def busy_loop(rng):
    """The sheet without its frame. K is drawn again until the bound leaves room below the greatest cap."""
    count = rng.randint(1, 3)
    types = [(rng.choice([1, 2, 2, 3, 4]), rng.choice([1, 2, 3, 4, 6])) for _ in range(count)]
    ops = [rng.randrange(count) for _ in range(OPERATIONS)]
    edges = []
    for j in range(1, OPERATIONS):
        for i in rng.sample(range(max(0, j - 6), j), min(j, rng.choice([0, 1, 1, 2]))):
            edges.append((i, j, 0, 0))
    for _ in range(rng.randint(2, 12)):
        i, j = rng.randrange(OPERATIONS), rng.randrange(OPERATIONS)
        edges.append((max(i, j), min(i, j), 0, rng.choice([1, 2, 2, 3])))
    for i, j, _, _ in rng.sample(edges, 4):
        edges.append((j, i, -types[ops[j]][1] - types[ops[i]][1] - rng.randint(4, 16), 0))
    sheet = plain_sheet(1, 1, types, ops, edges[:MOST_EDGES])
    while True:
        slots = [rng.choice([1, 2, 3, 3, 4, 5, 7]) for _ in types]
        sheet = with_busy(sheet, slots)
        if max(slots) > 1 and resource_bound(sheet) <= MOST_BUSY_BOUND:
            return sheet


def busy(rng):
    return with_room(rng, busy_loop(rng), rng.choice([8, 16, 32]))


def busy_tight(rng):
    sheet = with_room(rng, busy_loop(rng), 3)
    return with_horizon(sheet, min(128, sheet.horizon + resource_bound(sheet) // 4))


def packed_starts(rng, a, k, interval):
    """Starts on each of the instances, as many as it takes, all slots that are left over in one place."""
    starts = []
    for _ in range(a):
        at, gap = rng.randrange(interval), rng.randrange(interval // k)
        for part in range(interval // k):
            starts.append(at % interval + interval * rng.randint(0, 1))
            at += k + (interval % k if part == gap else 0)
    rng.shuffle(starts)
    return starts


def busy_blocks(rng):
    a, k = rng.choice([1, 2, 3, 4]), rng.choice([2, 3, 4, 5, 5, 6, 7])
    parts = min(OPERATIONS // a, MOST_BLOCKS // k)
    interval = parts * k + rng.randrange(k)
    starts = packed_starts(rng, a, k, interval)
    types, ops = [(a, rng.choice([0, 1, 2, k])), (0, 1)], [0] * len(starts) + [1] * (OPERATIONS - len(starts))
    edges = [(rng.randrange(i), i, 0, 0) for i in range(len(starts), OPERATIONS)]
    for i in range(len(starts) - 1):
        apart, late = starts[i + 1] - starts[i], types[0][1]
        if rng.random() < (0.8 if i % 2 == 0 else 0.25) and abs(apart) + late <= 64:
            edges += [(i, i + 1, apart - late, 0), (i + 1, i, -apart - late, 0)]
    sheet = with_busy(plain_sheet(1, min(MOST_CAP, interval + 8), types, ops, edges), [k, 1])
    return with_horizon(sheet, max(starts) + types[0][1] + 2 + rng.randint(0, 4))


PLAIN = (layered, dense, motor, deadlines, packing, recurrences, windows)
BUSY = (busy, busy_tight, busy_blocks)
IMPOSSIBLE = (rings, rivals, tilings)
SEARCHED = [f.__name__ for f in PLAIN + BUSY]  # a plain search answers these in time
FAMILIES = {f.__name__: f for f in PLAIN + BUSY + IMPOSSIBLE}


def sheet_of(family, seed):
    return FAMILIES[family](random.Random("%s %d" % (family, seed)))


def main():
    if len(sys.argv) != 3 or sys.argv[1] not in FAMILIES:
        sys.exit("usage: loops.py %s SEED" % "|".join(FAMILIES))
    sys.stdout.buffer.write(sheet_text(sheet_of(sys.argv[1], int(sys.argv[2]))))


if __name__ == "__main__":
    main()
