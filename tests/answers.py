"""Answers of another supplier for the tests, from a seed: trees that pass, plans that are not the first, trees cut down
to one leaf that may be so or not, all of these damaged in every way that 18, 4 and 19 name, and texts of every size.

A tree is (key, numbers) of a leaf and (key, numbers, up to, above) of a cut. Rows are lines without their line feed.
"""

import collections
import itertools

import reference as ref
import sheets
from judge_reference import CUTS, MOST_CUTS, MOST_EDGES, MOST_LINES
from sheets import HUGE

MOST_NODES = MOST_LINES - 2
LONGEST = MOST_LINES * len(b"late=" + b"9999," * (1 + MOST_EDGES))  # bytes of a text that could be well formed

# What is said of a sheet, and what is due: an answer, or None where only the reference says it.
Case = collections.namedtuple("Case", "name sheet text due")


# ---- rows and texts


def row_of(key, numbers):
    return b"%s=%s" % (key.encode(), b",".join(b"%d" % number for number in numbers))


def tree_rows(tree):
    """The nodes of a tree, one before those below it, however deep they are."""
    rows, due = [], [tree]
    while due:
        key, numbers, *parts = due.pop()
        rows.append(row_of(key, numbers))
        due += parts[::-1]
    return rows


def text_of(rows):
    return b"".join(row + b"\n" for row in rows)


def denial_rows(answer, interval, tree):
    return [b"answer=%d" % answer, b"interval=%d" % interval] + tree_rows(tree)


def denial(rng, interval, tree):
    """The text of a tree, with either number."""
    return text_of(denial_rows(rng.choice([5, 6]), interval, tree))


def plan_rows(interval, places):
    return [b"answer=0", b"interval=%d" % interval] + [row_of("at", at) for at in places]


def rows_of(text):
    return text.split(b"\n")[:-1]


def with_row(rows, k, *others):
    """The rows with these in place of one."""
    return rows[:k] + list(others) + rows[k + 1 :]


# ---- chains of edges


def best_chains(sheet, interval, lengths):
    """(begin, end, sum, edges) of a chain with the greatest sum, for these numbers of edges and all ends there are."""
    chains = {(i, i): (0, []) for i in range(len(sheet.ops))}
    for length in range(max(lengths) + 1):
        if length in lengths:
            yield from ((i, j, total, edges) for (i, j), (total, edges) in chains.items())
        longer = {}
        for (i, j), (total, edges) in chains.items():
            for k, edge in enumerate(sheet.edges):
                new = total + ref.total(sheet, interval, edge)
                if edge[0] == j and new > longer.get((i, edge[1]), (float("-inf"),))[0]:
                    longer[i, edge[1]] = new, edges + [k]
        chains = longer


def any_chain(rng, sheet, begin, length):
    """Edges that lead on from an operation, so many if there are."""
    chain, at = [], begin
    while len(chain) < length:
        further = [k for k, edge in enumerate(sheet.edges) if edge[0] == at]
        if not further:
            break
        chain.append(rng.choice(further))
        at = sheet.edges[chain[-1]][1]
    return chain


def end_and_sum(sheet, interval, begin, chain):
    """Of a chain that chains."""
    end = sheet.edges[chain[-1]][1] if chain else begin
    return end, sum(ref.total(sheet, interval, sheet.edges[k]) for k in chain)


# ---- a tree that passes, where there is no plan


class TooLarge(Exception):
    """The tree has more nodes than a text may have, or more cuts above a leaf."""


class Planned(Exception):
    """There is a plan."""


class Search:
    """Cuts all starts and all instances, listed for each operation, until each part is closed by a leaf. Which leaf,
    which cut and where is left to chance; now and then a part is cut though it could be closed, or cut outside of what
    is left to it."""

    def __init__(self, rng, sheet, interval):
        self.rng, self.sheet, self.interval, self.nodes = rng, sheet, interval, 0
        n = len(sheet.ops)
        lengths = {*range(n + 1), rng.randint(n, MOST_EDGES), MOST_EDGES}
        self.chains = list(best_chains(sheet, interval, lengths))
        self.loops = [edges for i, j, total, edges in self.chains if edges and i == j and total > 0]
        self.limited = [i for i in range(n) if ref.instances_of(sheet, i)]
        self.alone = [i for i in self.limited if ref.busy(sheet, i) > interval]
        self.order = rng.sample(range(n), n)
        self.idle = rng.choice([0, 0, 0.05, 0.2])  # how often a cut is made that need not be

    def tree(self):
        n = range(len(self.sheet.ops))
        starts = [ref.start_range(self.sheet, i) for i in n]
        return self.closed(starts, [list(ref.instance_range(self.sheet, i)) for i in n], 0)

    def closed(self, starts, units, cuts):
        """The tree of a part, with so many cuts above it."""
        self.nodes += 1
        if self.nodes > MOST_NODES or cuts > MOST_CUTS:
            raise TooLarge
        leaves = self.leaves(starts, units)
        if leaves and (cuts == MOST_CUTS or self.rng.random() >= self.idle):
            return self.rng.choice(self.rng.choice(leaves))
        cut = self.idle_cut(starts, leaves) if leaves or self.rng.random() < self.idle else self.cut(starts, units)
        return (*cut, *(self.closed(*part, cuts + 1) for part in self.halves(starts, units, *cut)))

    def halves(self, starts, units, key, numbers):
        i, number = numbers
        lists = starts if key == "split" else units
        for half in ([v for v in lists[i] if v <= number], [v for v in lists[i] if v > number]):
            changed = lists[:i] + [half] + lists[i + 1 :]
            yield (changed, units) if key == "split" else (starts, changed)

    def leaves(self, starts, units):
        """Those that are so, by kind."""
        empty = [("late", [i]) for i, left in enumerate(starts) if not left]
        kinds = [[("loop", edges) for edges in self.loops], [("clash", [i, i]) for i in self.alone]]
        kinds += [empty or self.lates(starts), [] if empty else self.clashes(starts, units)]
        return [kind for kind in kinds if kind]

    def lates(self, starts):
        return [("late", [i, *edges]) for i, j, total, edges in self.chains if starts[i][0] + total > starts[j][-1]]

    def clashes(self, starts, units):
        there = [i for i in self.limited if len(starts[i]) == 1 == len(units[i])]
        place = {i: (starts[i][0], units[i][0]) for i in there}
        pairs = itertools.permutations(there, 2)
        return [
            ("clash", [i, j]) for i, j in pairs if ref.collide(self.sheet, self.interval, i, place[i], j, place[j])
        ]

    def cut(self, starts, units):
        """Inside what is left: at the end of what a chain leaves to an operation, or anywhere."""
        bounds = self.bounds(starts)
        if bounds and self.rng.random() < 0.7:
            return "split", self.rng.choice(bounds)
        wide = [("split", i, starts[i]) for i in self.order if len(starts[i]) > 1]
        wide += [("seat", i, units[i]) for i in self.order if len(units[i]) > 1]
        if not wide:
            raise Planned
        key, i, left = min(wide, key=lambda cut: len(cut[2])) if self.rng.random() < 0.8 else self.rng.choice(wide)
        return key, [i, self.rng.choice([left[0], left[-2], left[len(left) // 2 - 1]])]

    def bounds(self, starts):
        """(operation, number) of cuts after which one part is late."""
        found = []
        for i, j, total, _ in self.chains:
            if starts[j][0] < starts[i][0] + total <= starts[j][-1]:
                found.append([j, starts[i][0] + total - 1])
            if starts[i][0] <= starts[j][-1] - total < starts[i][-1]:
                found.append([i, starts[j][-1] - total])
        return found

    def idle_cut(self, starts, leaves):
        """At any number; a seat only where no instance has to be left for the leaf."""
        i, kinds = self.rng.randrange(len(starts)), {leaf[0][0] for leaf in leaves}
        if i in self.limited and kinds & {"late", "loop"} and self.rng.random() < 0.4:
            return "seat", [i, self.rng.choice([0, 1, 2, 7, 8, HUGE])]
        ends = [starts[i][0] - 1, starts[i][0], starts[i][-1], self.sheet.horizon] if starts[i] else [0]
        return "split", [i, max(0, self.rng.choice([*ends, 0, HUGE]))]


def passing_tree(rng, sheet, interval):
    """None where three attempts are too large; where there is a plan it raises Planned."""
    for _ in range(3):
        try:
            return Search(rng, sheet, interval).tree()
        except TooLarge:
            continue
    return None


# ---- plans


def wandered(rng, sheet, interval, plan):
    """A plan that is reached from this one, (starts, instances), by moving one operation after the other."""
    places = list(zip(*plan))
    for _ in range(3 * len(places)):
        i = rng.randrange(len(places))
        start, unit = rng.choice(ref.start_range(sheet, i)), rng.choice(ref.instance_range(sheet, i))
        moved = places[:i] + [(start, unit)] + places[i + 1 :]
        if ref.is_plan(sheet, interval, *zip(*moved)):
            places = moved
    return places


def other_places(rng, sheet, interval, places):
    """(name, places) that are about a plan: one operation at either side of its ends, on another instance, where a
    rival is, beside where an edge puts it; or all of them anywhere."""
    n = len(places)
    i = rng.randrange(n)
    lo, hi = ref.window(sheet, i)
    last = sheet.horizon - ref.latency(sheet, i)
    for start in {lo - 1, lo, hi, hi + 1, last, last + 1, sheet.horizon, HUGE}:
        if start >= 0:
            yield "a start at an end", moved_to(places, i, start, places[i][1])
    for unit in {0, 1, ref.instances_of(sheet, i), HUGE}:
        yield "another instance", moved_to(places, i, places[i][0], unit)
    for j in [j for j in range(n) if ref.rivals(sheet, i, j)]:
        for start in {places[j][0] + rng.choice([-1, 0, 1]) * k for k in (0, interval, ref.busy(sheet, i))}:
            yield "where a rival is", moved_to(places, i, max(0, start), places[j][1])
    for edge in sheet.edges:
        start = places[edge[0]][0] + ref.total(sheet, interval, edge)
        for beside in (start - 1, start):
            yield "beside an edge", moved_to(places, edge[1], max(0, beside), places[edge[1]][1])
    yield "anywhere", [(rng.randrange(sheet.horizon), rng.choice(ref.instance_range(sheet, j))) for j in range(n)]


def moved_to(places, i, start, unit):
    return places[:i] + [(start, unit)] + places[i + 1 :]


# ---- one leaf, below cuts whose other part is closed by another leaf


def with_bad_edge(sheet):
    """The sheet with one edge more, an operation's to itself, that can never be kept; and the leaf that says so."""
    edges = sheet.edges[:95] + [(0, 0, 64, 0)]
    changed = ref.Sheet(sheet.horizon, sheet.cap, sheet.types, sheet.ops, edges)
    return changed, ("loop", [len(edges) - 1])


def below(cuts, leaf, closing):
    """The tree with this leaf at the end of the cuts, each (key, operation, number, whether the leaf is above)."""
    for key, i, number, above in reversed(cuts):
        leaf = (key, [i, number], *((closing, leaf) if above else (leaf, closing)))
    return leaf


def pin(key, i, value):
    """Cuts that leave one start or instance to an operation, if it has that."""
    return ([(key, i, value - 1, True)] if value > 0 else []) + [(key, i, value, False)]


def late_leaf(rng, sheet, interval):
    """(cuts, leaf): about as late as not, by a chain of any length."""
    i = rng.randrange(len(sheet.ops))
    chain = any_chain(rng, sheet, i, rng.choice([0, 1, 1, 2, 2, 3, 5, 23, 24]))
    end, total = end_and_sum(sheet, interval, i, chain)
    lowest = rng.choice([ref.window(sheet, i)[0], rng.randrange(sheet.horizon)])
    cuts = [("split", i, lowest - 1, True)] if lowest else []
    highest = lowest + total + rng.choice([-1, -1, 0, 0, 1])
    if highest >= 0 and rng.random() < 0.9:
        cuts.append(("split", end, highest, False))
    return cuts, ("late", [i, *chain])


def loop_leaf(rng, sheet, _):
    """A chain that may be closed or not and may be bad or not."""
    i = rng.randrange(len(sheet.ops))
    chain = any_chain(rng, sheet, i, rng.choice([1, 1, 2, 2, 3, 4, 24])) or [0]
    ends = [k for k in range(1, len(chain) + 1) if sheet.edges[chain[k - 1]][1] == i]
    return [], ("loop", chain[: rng.choice(ends)] if ends and rng.random() < 0.9 else chain)


def clash_leaf(rng, sheet, interval):
    """Two operations, most often rivals, about as far from each other as they are busy, most often pinned both and to
    one instance; or one operation."""
    n = len(sheet.ops)
    i, j = rng.randrange(n), rng.randrange(n)
    rivals = [j for j in range(n) if ref.rivals(sheet, i, j)]
    j = rng.choice(rivals) if rivals and rng.random() < 0.9 else j
    if rng.random() < 0.1:
        return [], ("clash", [i, i])
    busy = ref.busy(sheet, i)
    start = rng.choice(ref.start_range(sheet, i) or [0])
    apart = rng.choice([0, busy, busy - 1, 1 - busy, -busy, interval - busy, interval - busy + 1, interval])
    other = max(0, start + apart + interval * rng.choice([-1, 0, 0, 1]))
    unit = rng.choice(ref.instance_range(sheet, i))
    seat = unit if rng.random() < 0.9 else rng.choice(ref.instance_range(sheet, j))
    cuts = pin("split", i, start) + pin("split", j, other)
    for k, at in ((i, unit), (j, seat)):
        cuts += pin("seat", k, at) if ref.instances_of(sheet, k) else []
    if rng.random() < 0.25:
        cuts.pop(rng.randrange(len(cuts)))
    rng.shuffle(cuts)
    return cuts, ("clash", [i, j])


def any_leaf(rng, sheet, _):
    """Below any cuts, seats of an unlimited operation among them."""
    n = len(sheet.ops)
    cuts = [
        (rng.choice(CUTS), rng.randrange(n), rng.choice([0, 1, rng.randrange(sheet.horizon), HUGE]), rng.random() < 0.5)
        for _ in range(rng.randint(0, 4))
    ]
    edges = [rng.randrange(len(sheet.edges)) for _ in range(rng.randint(1, 3))]
    i, j = rng.randrange(n), rng.randrange(n)
    return cuts, rng.choice([("late", [i]), ("late", [i, *edges]), ("loop", edges), ("clash", [i, j])])


def one_leaf_cases(rng, sheet, count):
    """Leaves of each kind, so many, at any interval of a sheet that has a bad edge."""
    sheet, closing = with_bad_edge(sheet)
    for k in range(count):
        interval = sheets.spread(rng, 1, sheet.cap)
        make = [late_leaf, clash_leaf, loop_leaf, late_leaf, clash_leaf, any_leaf][k % 6]
        cuts, leaf = make(rng, sheet, interval)
        yield Case("one leaf, " + leaf[0], sheet, denial(rng, interval, below(cuts, leaf, closing)), None)


def early_sheet(rng):
    """A small sheet of which some results come after the horizon, whatever the start: H - D is below 0."""
    n = rng.randint(2, 5)
    types = [(rng.choice([0, 1, 2]), rng.choice([0, 1, rng.randint(0, 32), 32])) for _ in range(3)]
    edges = [(rng.randrange(n), rng.randrange(n), rng.randint(-64, 3), rng.choice([0, 0, 1, 8])) for _ in range(8)]
    kinds = [rng.randrange(3) for _ in range(n)]
    sheet = ref.plain_sheet(rng.randint(1, 6), rng.randint(1, 6), types, kinds, edges)
    return ref.with_windows(sheet, [sheets.any_window(rng, sheet.horizon) for _ in kinds])


def just_late_cases(rng, sheet):
    """Of each edge, late by it without a cut: its delay is such that the lowest start and the total come just past the
    highest start of its end, which may be below 0, or just not."""
    for k, (i, j, _, b) in enumerate(sheet.edges):
        interval, lo = rng.randint(1, sheet.cap), ref.window(sheet, i)[0]
        highest = min(ref.window(sheet, j)[1], sheet.horizon - 1, sheet.horizon - ref.latency(sheet, j))
        for more, due in ((0, 19), (1, 0), (rng.choice([-1, 2]), None)):
            delay = highest + more - lo - ref.latency(sheet, i) + b * interval
            if -64 <= delay <= 64:
                edges = sheet.edges[:k] + [(i, j, delay, b)] + sheet.edges[k + 1 :]
                changed = ref.Sheet(sheet.horizon, sheet.cap, sheet.types, sheet.ops, edges)
                yield Case("just late or not", changed, denial(rng, interval, ("late", [i, k])), due)


# ---- damage that has its number: 18


def numbers_of(row):
    return row.split(b"=")[1].split(b",")


def key_of(row):
    return row.split(b"=")[0]


def misspelt(rng, row):
    """The row with one number spelt as no line may have it."""
    key, numbers = key_of(row), numbers_of(row)
    k = rng.randrange(len(numbers))
    signs = [sign + numbers[k] for sign in (b"-", b"0", b"+")]
    for odd in (*signs, b"", b"10000", b"12345", b"-0", b"-1", b"x", b"1.0", b" 1", b"1 "):
        yield key + b"=" + b",".join(with_row(numbers, k, odd))


def misshapen(row):
    """The row with commas, keys and bytes that no line has."""
    key, rest = row.split(b"=")
    yield from (row + more for more in (b",", b" ", b"\r", b"\0", b"\x80", b"\n"))
    yield from (key + sign + rest for sign in (b"=,", b"==", b"", b" =", b"= "))
    for other in (key[:-1], key + b"s", b"x" + key, b" " + key, key.upper(), b"", b"op", b"edge"):
        yield other + b"=" + rest
    yield from (b"", key, key + b"=", rest, row.replace(b"=", b","))


def miscounted(row):
    """The row with fewer numbers than it has to have, or more than it may have."""
    key, numbers = key_of(row), numbers_of(row)
    most = {b"loop": MOST_EDGES, b"late": 1 + MOST_EDGES}.get(key, len(numbers))
    for count in (most + 1, most + 2, 500):
        yield key + b"=" + b",".join((numbers * count)[:count])
    if key in (b"at", b"split", b"seat", b"clash"):
        yield key + b"=" + numbers[0]


def unknown(sheet, row):
    """The row with an operation or an edge that the sheet lacks."""
    key, numbers = key_of(row), numbers_of(row)
    named = {b"split": 1, b"seat": 1, b"late": 1, b"clash": 2}.get(key, 0)
    edges = range(named, len(numbers)) if key in (b"loop", b"late") else []
    for count, places in ((len(sheet.ops), range(named)), (len(sheet.edges), edges)):
        for k, number in itertools.product(places, (count, count + 1, HUGE)):
            yield key + b"=" + b",".join(with_row(numbers, k, b"%d" % number))


def other_heads(rows):
    """Another answer, or the first two lines in another way."""
    for answer in (1, 2, 3, 4, 7, 8, 10, 18, 19, 50, HUGE):
        yield with_row(rows, 0, b"answer=%d" % answer)
    yield with_row(rows, 0, b"answer=6" if rows[0] == b"answer=0" else b"answer=0")
    yield [rows[1], rows[0], *rows[2:]]
    yield [*rows[:2], *rows]
    yield [*rows[:2], rows[1], *rows[2:]]
    yield [rows[0], *rows[2:]]
    yield rows[1:]


def malformed_cases(rng, sheet, text):
    """From a well-formed text."""
    rows = rows_of(text)
    for k in {0, 1, 2, len(rows) - 1, rng.randrange(len(rows)), rng.randrange(len(rows))}:
        for kind, odd in odd_rows(rng, sheet, rows[k]):
            yield Case("18, " + kind, sheet, text_of(with_row(rows, k, odd)), 18)
        yield Case("18, a line lost", sheet, text_of(with_row(rows, k)), 18)
        yield Case("18, a line doubled", sheet, text_of(with_row(rows, k, rows[k], rows[k])), 18)
        yield Case("18, a line of the other kind", sheet, text_of(with_row(rows, k, other_row(rows, k))), 18)
        yield Case("18, no line feed", sheet, text_of(rows[:k]) + rows[k] + text_of(rows[k + 1 :]), 18)
    for head in other_heads(rows):
        yield Case("18, its head", sheet, text_of(head), 18)
    for count in {0, 1, len(text) - 1, rng.randrange(len(text)), rng.randrange(len(text))}:
        yield Case("18, cut short", sheet, text[:count], 18)
    for more in (b"\n", b" ", b"\0", b"x", b"at=0,0\n", b"late=0\n", b"split=0,0\n", text):
        yield Case("18, followed by more", sheet, text + more, 18)
        yield Case("18, after something", sheet, more + text, 18)
    for end in (b"\r\n", b"\r", b"\n\n", b" \n", b"\0"):
        yield Case("18, other line ends", sheet, text.replace(b"\n", end), 18)


def odd_rows(rng, sheet, row):
    """(kind, row): some of each."""
    kinds = {
        "a number misspelt": misspelt(rng, row),
        "a line misshapen": misshapen(row),
        "a line miscounted": miscounted(row),
        "unknown to the sheet": unknown(sheet, row),
    }
    for kind, odd in kinds.items():
        odd = list(odd)
        yield from ((kind, one) for one in rng.sample(odd, min(3, len(odd))))


def other_row(rows, k):
    """What cannot stand there."""
    return b"at=0,0" if rows[0] != b"answer=0" or k < 2 else b"late=0"


# ---- damage that has its number: 4 and 19


def interval_cases(rng, sheet, text):
    """From a well-formed text, whether it passes or not."""
    rows = rows_of(text)
    for interval in (0, sheet.cap + 1, HUGE, rng.randint(sheet.cap + 1, HUGE)):
        other = text_of(with_row(rows, 1, b"interval=%d" % interval))
        yield Case("4", sheet, other, 4)
        yield Case("18 before 4", sheet, other + b"\n", 18)


def wrong_cases(rng, sheet, interval, tree):
    """From a tree that passes: its parts below a seat that may not be made."""
    unlimited = [i for i in range(len(sheet.ops)) if not ref.instances_of(sheet, i)]
    if unlimited and 2 * len(tree_rows(tree)) < MOST_NODES and cuts_above(tree) < MOST_CUTS:
        seat = ("seat", [rng.choice(unlimited), rng.choice([0, 1, HUGE])], tree, tree)
        yield Case("19, a seat of an unlimited operation", sheet, denial(rng, interval, seat), 19)


def cuts_above(tree):
    """The most above a leaf."""
    return max((1 + cuts_above(part) for part in tree[2:]), default=0)


def any_tree(rng, sheet, cuts):
    """A well-formed tree with at most so many cuts above a leaf."""
    n, e = len(sheet.ops), len(sheet.edges)
    i, j = rng.randrange(n), rng.randrange(n)
    if cuts and rng.random() < 0.6:
        numbers = [i, rng.choice([0, 0, 1, 2, rng.randrange(sheet.horizon), HUGE])]
        return (rng.choice(CUTS), numbers, *(any_tree(rng, sheet, cuts - 1) for _ in range(2)))
    leaves = [("late", [i]), ("late", [i, *any_chain(rng, sheet, i, 3)]), ("clash", [i, j]), ("clash", [i, i])]
    leaves += [("loop", [rng.randrange(e) for _ in range(rng.randint(1, 3))])] if e else []
    return rng.choice(leaves)


# ---- damage whose number the reference says


def nodes_of(tree, path=()):
    """The path to each node."""
    yield path
    for k, part in enumerate(tree[2:]):
        yield from nodes_of(part, (*path, 2 + k))


def at_path(tree, path):
    for k in path:
        tree = tree[k]
    return tree


def changed_at(tree, path, change):
    """The tree with one node, and what is below it, changed."""
    if not path:
        return change(tree)
    k = path[0]
    return (*tree[:k], changed_at(tree[k], path[1:], change), *tree[k + 1 :])


def other_number(rng, sheet, node):
    """One number of the node a little different, or any."""
    k = rng.randrange(len(node[1]))
    near = [max(0, node[1][k] + rng.choice([-1, 1])), rng.choice([0, 1, rng.randrange(len(sheet.ops)), HUGE])]
    return (node[0], node[1][:k] + [rng.choice(near)] + node[1][k + 1 :], *node[2:])


def other_list(rng, node):
    """Of a leaf numbers lost, doubled or in another order; of a cut its parts exchanged, or the other kind of cut."""
    if len(node) > 2:
        other = CUTS[1 - CUTS.index(node[0])]
        return rng.choice([(*node[:2], node[3], node[2]), (other, *node[1:]), (*node[:2], node[2], node[2])])
    k = rng.randrange(len(node[1]))
    lists = [node[1][:k] + node[1][k + 1 :] or [0], node[1][: k + 1] + node[1][k:], node[1][::-1]]
    return node[0], rng.choice(lists)


def tree_edits(rng, sheet, tree):
    """The tree with one node changed, replaced by a leaf or by a tree of its own, or put where another was."""
    paths = list(nodes_of(tree))
    path, other = rng.choice(paths), rng.choice(paths)
    yield changed_at(tree, path, lambda node: other_number(rng, sheet, node))
    yield changed_at(tree, path, lambda node: other_number(rng, sheet, node))
    yield changed_at(tree, path, lambda node: other_list(rng, node))
    yield changed_at(tree, path, lambda node: any_tree(rng, sheet, 1))
    leaf = at_path(tree, max(paths, key=len))
    yield changed_at(tree, path, lambda node: leaf)
    yield changed_at(tree, path, lambda node: at_path(tree, other))


def damaged(rng, text):
    """One to three edits of bytes, lines and numbers."""
    edits = [sheets.changed_byte, sheets.added_byte, sheets.lost_byte, sheets.moved_line, sheets.other_number]
    data = bytearray(text)
    for _ in range(rng.choice([1, 1, 1, 2, 3])):
        data = rng.choice(edits)(rng, data)
    return bytes(data)


# ---- the cases of a small sheet


def denied_cases(rng, sheet, interval):
    """Where there is no plan: a tree, what is made of it, and places."""
    tree = passing_tree(rng, sheet, interval)
    places = [(rng.choice(ref.start_range(sheet, i) or [0]), 0) for i in range(len(sheet.ops))]
    yield Case("19, a plan where there is none", sheet, text_of(plan_rows(interval, places)), 19)
    if tree is None:
        return
    text = denial(rng, interval, tree)
    yield Case("a tree", sheet, text, 0)
    yield from wrong_cases(rng, sheet, interval, tree)
    yield from malformed_cases(rng, sheet, text)
    for other in tree_edits(rng, sheet, tree):
        yield Case("a tree edited", sheet, denial(rng, interval, other), None)
    if interval > 1:
        yield Case("a tree of another interval", sheet, denial(rng, interval - 1, tree), None)
    yield from interval_cases(rng, sheet, text)
    yield from (Case("a tree damaged", sheet, damaged(rng, text), None) for _ in range(12))


def planned_cases(rng, sheet, interval, plan):
    """Where there is a plan: others, what is made of them, and trees."""
    places = wandered(rng, sheet, interval, plan)
    text = text_of(plan_rows(interval, places))
    yield Case("a plan", sheet, text, 0)
    yield from malformed_cases(rng, sheet, text)
    others = list(other_places(rng, sheet, interval, places))
    for name, other in others:
        due = 0 if ref.is_plan(sheet, interval, *zip(*other)) else 19
        yield Case("places, " + name, sheet, text_of(plan_rows(interval, other)), due)
    yield from interval_cases(rng, sheet, text_of(plan_rows(interval, rng.choice(others)[1])))
    yield from (Case("a plan damaged", sheet, damaged(rng, text), None) for _ in range(12))
    for cuts in (0, 1, 2, 4):
        tree = any_tree(rng, sheet, cuts)
        yield Case("19, a tree where there is a plan", sheet, denial(rng, interval, tree), 19)


def small_cases(rng, sheet):
    """At the intervals about the least that has a plan, and another."""
    least = ref.least_interval(sheet)[1] or sheet.cap
    for interval in sorted({max(1, least - 1), least, rng.randint(1, sheet.cap)}):
        answer, *plan, _ = ref.plan_at(sheet, interval)
        yield from planned_cases(rng, sheet, interval, plan) if answer == 0 else denied_cases(rng, sheet, interval)
    yield from one_leaf_cases(rng, sheet, 30)


def tight_sheet(rng):
    """One operation more of a busy type than its instances take at the cap, in few clocks, so that a tree has to go far
    to deny it; now and then another operation, edges and windows."""
    while True:
        a, k, interval = rng.choice([1, 1, 2]), rng.choice([1, 1, 2, 3]), rng.randint(1, 4)
        count = a * (interval // k) + 1
        if k <= interval and count <= 4:
            break
    kinds = [0] * count + [1] * rng.choice([0, 0, 1])
    rng.shuffle(kinds)
    edges = [sheets.small_edge(rng, len(kinds)) for _ in range(rng.choice([0, 1, 2, 4, 6]))]
    horizon = rng.randint(2, 5)
    sheet = ref.plain_sheet(horizon, interval, [(a, rng.choice([0, 1])), (0, 1)], kinds, edges)
    windows = [rng.choice([(0, horizon - 1), sheets.any_window(rng, horizon)]) for _ in kinds]
    return ref.with_windows(ref.with_busy(sheet, [k, 1]), windows)


# ---- sizes


def cut_of(rng, sheet):
    """Any cut that may be made."""
    limited = [i for i in range(len(sheet.ops)) if ref.instances_of(sheet, i)]
    number = rng.choice([0, 1, rng.randrange(sheet.horizon), HUGE])
    if limited and rng.random() < 0.5:
        return "seat", [rng.choice(limited), number]
    return "split", [rng.randrange(len(sheet.ops)), number]


def comb(rng, sheet, cuts, leaf):
    """A tree with so many cuts above a leaf, each of which has a leaf on either side."""
    tree = leaf
    for _ in range(cuts):
        tree = (*cut_of(rng, sheet), *rng.choice([(tree, leaf), (leaf, tree)]))
    return tree


def bush(rng, sheet, leaves, leaf):
    """A tree with so many leaves and few cuts above each."""
    if leaves == 1:
        return leaf
    some = leaves // 2 + rng.randint(-min(8, leaves // 2 - 1), min(8, leaves // 2 - 1))
    return (*cut_of(rng, sheet), bush(rng, sheet, some, leaf), bush(rng, sheet, leaves - some, leaf))


def size_cases(rng, sheet):
    """Trees and lists of numbers at and past each size, on a sheet of any size that has a bad edge."""
    sheet, leaf = with_bad_edge(sheet)
    interval, edge = sheets.spread(rng, 1, sheet.cap), leaf[1]
    trees = [(comb(rng, sheet, cuts, leaf), 18 if cuts > MOST_CUTS else 0) for cuts in (1, 63, 64, 65, 66, 500)]
    trees += [(bush(rng, sheet, leaves, leaf), 18 if leaves > 511 else 0) for leaves in (2, 500, 510, 511, 512, 1500)]
    trees += [(("loop", edge * count), 18 if count > MOST_EDGES else 0) for count in (1, 2, 23, 24, 25, 26, 1000)]
    trees += [(("late", [0, *edge * count]), 18 if count > MOST_EDGES else None) for count in (1, 23, 24, 25, 26, 1000)]
    for tree, due in trees:
        yield Case("sizes", sheet, denial(rng, interval, tree), due)
    rows = denial_rows(6, interval, bush(rng, sheet, 512, leaf))
    yield Case("sizes, 1,024 lines and cut short", sheet, text_of(rows[:-1]), 18)
    yield Case("sizes, 1,025 lines", sheet, text_of(rows), 18)
    rows = denial_rows(6, interval, bush(rng, sheet, 511, leaf))
    yield Case("sizes, 1,023 lines and one more", sheet, text_of([*rows, rows[-1]]), 18)
    yield Case("sizes, 1,023 lines, no interval", sheet, text_of(with_row(rows, 1, b"interval=0")), 4)
    leaves = [k for k, row in enumerate(rows) if key_of(row) == b"loop"]
    for wrong in leaves_not_so(sheet, interval)[:1]:
        for k in (leaves[0], rng.choice(leaves), leaves[-1]):
            yield Case("sizes, one leaf of 511 not so", sheet, text_of(with_row(rows, k, row_of(*wrong))), 19)
    yield from long_cases(rng, sheet, rows)


def leaves_not_so(sheet, interval):
    """Some that are not so in any part: an operation that does not meet itself, an edge from one to another."""
    idle = [i for i in range(len(sheet.ops)) if not (ref.instances_of(sheet, i) and ref.busy(sheet, i) > interval)]
    open_walks = [k for k, edge in enumerate(sheet.edges) if edge[0] != edge[1]]
    return [("clash", [i, i]) for i in idle] + [("loop", [k]) for k in open_walks]


def long_cases(rng, sheet, rows):
    """Texts about as long as one that could be well formed, and longer."""
    text = text_of(rows)
    longest = row_of("late", [HUGE] * (1 + MOST_EDGES))
    for length in (LONGEST - 1, LONGEST, LONGEST + 1, 3 * LONGEST):
        for more in (b"\n", b"0", b"loop=0\n", b"late=0," + b"0," * 30, longest + b"\n"):
            filled = text + more * (length // len(more))
            yield Case("long texts", sheet, filled[:length], 18)
            yield Case("long texts, from the top", sheet, (more * (1 + length // len(more)))[:length], 18)
    for number in (b"9" * LONGEST, b"0," * LONGEST, b"1" + b"0" * 30, b"18446744073709551616", b"4294967296"):
        k = rng.randrange(len(rows))
        yield Case("long lines", sheet, text_of(with_row(rows, k, key_of(rows[k]) + b"=" + number)), 18)
    yield Case("as many of the longest lines", sheet, text_of([*rows[:2], *[longest] * MOST_NODES]), 18)
