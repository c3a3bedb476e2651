"""Generators of loop sheets that have no plan for a reason that a search by starts is slow to see.

rings    rings of operations with deadlines, held so close together that two units cannot serve them wherever they
         stand, at any interval; other operations around them have windows of their own
rivals   more operations of one type than it has instances, forced by edges to one start, or to so few clocks that
         the instances do not reach; other operations around them likewise
tilings  16 to 24 operations in rigid pairs or triples that would fill every slot of every instance at some interval,
         where the sum of the slots modulo 2 or 3 denies it; the cap is that interval or the next

In rings and rivals no interval has a plan; in tilings the next interval may have one.
"""

from reference import RANGES, plain_sheet, with_horizon, with_windows

OPERATIONS = RANGES["N"][1]
NO_WALK = -(10**6)


# ---- operations that cannot stand together


def all_lags(count, differences):
    """By how much each start at least follows each other, by (i, j, w): start of i plus w is at most start of j."""
    lags = [[NO_WALK] * count for _ in range(count)]
    for i, j, w in differences:
        lags[i][j] = max(lags[i][j], w)
    for k in range(count):
        for i in range(count):
            for j in range(count):
                if lags[i][k] != NO_WALK and lags[k][j] != NO_WALK:
                    lags[i][j] = max(lags[i][j], lags[i][k] + lags[k][j])
    return lags


class Line:
    """Places operations on clocks, so many at most at each, the first one at 0; counts the steps it takes.

    Where this cannot be done no interval has a plan: operations at one clock share a slot at every interval.
    """

    def __init__(self, units, lags):
        self.units, self.lags, self.steps = units, lags, 0
        self.all = range(len(lags))

    def fits(self):
        lags = self.lags
        return self.extend([lags[0][j] for j in self.all], [-lags[j][0] for j in self.all], {0: 0})

    def extend(self, low, high, placed):
        self.steps += 1
        left = [i for i in self.all if i not in placed]
        if not left:
            return True
        i = min(left, key=lambda i: high[i] - low[i])
        return any(self.extend_by(low, high, placed, i, t) for t in range(low[i], high[i] + 1))

    def extend_by(self, low, high, placed, i, t):
        if list(placed.values()).count(t) == self.units:
            return False
        low = [max(low[j], t + self.lags[i][j]) for j in self.all]
        high = [min(high[j], t - self.lags[j][i]) for j in self.all]
        return all(a <= b for a, b in zip(low, high)) and self.extend(low, high, {**placed, i: t})


def some_rings(rng, count, slack):
    """Differences of rings of three operations or more, each with a deadline from its last to its first, and of the
    first ones of each ring and the next."""
    ops, first, differences = rng.sample(range(count), count), [], []
    while ops:
        size = len(ops) if len(ops) < 6 else rng.randint(3, 5)
        ring, ops = ops[:size], ops[size:]
        gaps = [rng.choice([0, 1, 1, 2]) for _ in ring[1:]]
        differences += list(zip(ring, ring[1:], gaps))
        differences.append((ring[-1], ring[0], -sum(gaps) - rng.randint(1, slack)))
        first.append(ring[0])
    return differences + [(i, j, -rng.randint(0, slack)) for i, j in zip(first, first[1:] + first[:1])]


UNITS = 2
LEAST_STEPS = 300  # what it takes to see that the rings do not fit
MOST_SLACK = 3  # clocks


def rings_without_place(rng, count):
    """Rings that two units cannot serve, which takes some search to see."""
    while True:
        differences = some_rings(rng, count, rng.randint(2, MOST_SLACK))
        line = Line(UNITS, all_lags(count, differences))
        if all(line.lags[i][i] <= 0 for i in range(count)) and not line.fits() and line.steps >= LEAST_STEPS:
            return differences


def rivals_without_place(instances, clocks):
    """So many rivals within so few clocks that there is one more than the instances take there."""
    every = range(instances * clocks + 1)
    return [(i, j, 1 - clocks) for i in every for j in every if i != j and (clocks > 1 or abs(i - j) == 1)]


# ---- the sheets


MOST_STARTS = 12  # that an operation around the others has
LEAST_INTERVAL = 12  # with fewer slots there is little to search
MORE_INTERVALS = 16


def surrounded(rng, instances, count, differences):
    """A sheet in which these operations have no place and each of the others has a window of two clocks or more."""
    types = [(instances, rng.choice([0, 1, 2])), (0, 2), (3, 1)]
    numbers = rng.sample(range(OPERATIONS), OPERATIONS)
    held, others = numbers[:count], numbers[count:]
    ops = [0 if i in held else rng.randint(1, 2) for i in range(OPERATIONS)]
    edges = [(held[i], held[j], w - types[0][1], 0) for i, j, w in differences]
    sheet = plain_sheet(1, LEAST_INTERVAL + MORE_INTERVALS, types, ops, edges)
    sheet = with_horizon(sheet, rng.randint(2, 4) * LEAST_INTERVAL)
    windows = [(0, sheet.horizon - 1)] * OPERATIONS
    for i in others:
        first = rng.randrange(sheet.horizon - MOST_STARTS - 2)
        windows[i] = first, first + rng.randint(1, MOST_STARTS - 1)
    return with_windows(sheet, windows)


def rings(rng):
    count = rng.randint(12, 14)
    return surrounded(rng, UNITS, count, rings_without_place(rng, count))


def rivals(rng):
    instances, clocks = rng.randint(2, 3), rng.choice([1, 2, 2, 3])
    return surrounded(rng, instances, instances * clocks + 1, rivals_without_place(instances, clocks))


def shapes(rng, modulus):
    """(instances, interval) for tilings by so many operations each: multiples of the modulus in all."""
    fit = [n for n in range(16, OPERATIONS + 1) if n % modulus == 0]
    count = rng.choice(fit)
    return rng.choice([(a, count // a) for a in range(1, 5) if count % (a * modulus) == 0 and count // a >= 6])


def pairs(rng):
    """Instances, interval and pairs of which an odd number have an even distance, so that odd slots and even ones
    cannot both be filled."""
    instances, interval = shapes(rng, 2)
    count = instances * interval // 2
    even = rng.randrange(1, count + 1, 2)
    apart = [rng.randrange(2, interval, 2) for _ in range(even)] + [
        rng.randrange(1, interval, 2) for _ in range(count - even)
    ]
    return instances, interval, [(0, d) for d in rng.sample(apart, count)]


def triples(rng):
    """Instances, interval and triples whose distances do not add up to a multiple of 3, as all slots do."""
    instances, interval = shapes(rng, 3)
    while True:
        parts = [(0, *sorted(rng.sample(range(1, interval), 2))) for _ in range(instances * interval // 3)]
        if sum(map(sum, parts)) % 3:
            return instances, interval, parts


def rigid_edges(parts, numbers, late):
    """Two edges between each operation of a part and the next, which fix the distance."""
    for part in parts:
        ops, numbers = numbers[: len(part)], numbers[len(part) :]
        for i, j, a, b in zip(ops, ops[1:], part, part[1:]):
            yield i, j, b - a - late, 0
            yield j, i, a - b - late, 0


def tilings(rng):
    instances, interval, parts = rng.choice([pairs, pairs, triples])(rng)
    late, count = rng.choice([0, 1, 2]), instances * interval
    edges = list(rigid_edges(parts, rng.sample(range(count), count), late))
    horizon = 2 * interval + rng.randint(0, interval) + late
    return plain_sheet(horizon, interval + rng.choice([0, 0, 1]), [(instances, late)], [0] * count, edges)
