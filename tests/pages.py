"""Plans that are handed in for a page, as (starts, instances): full and consistent, with each fault that question 10
names, with any counts; their lines, well formed and not; and what is said of those that are not."""

import itertools

import reference as ref
import stored
from sheets import HUGE

MOST_COUNT = ref.MOST_OPERATIONS + 1  # one more than there may be

# The sheet with the longest page, at interval 64: 8 types of 8 instances.
WIDEST = ref.plain_sheet(128, 64, [(8, 1)] * 8, [i % 8 for i in range(ref.MOST_OPERATIONS)], [])

# The same with units that are busy for as long as they may be.
BUSIEST = ref.with_busy(WIDEST, [ref.RANGES["K"][1]] * 8)


def told(line):
    """What is said on standard error of lines that are no plan, by the number of the first that is none."""
    wrong = b"not as in answer=0, interval=L and lines at=t,u, as leastplan prints them"
    if 2 + ref.MOST_OPERATIONS < line:
        wrong = b"past the 24 lines at=t,u that it may have"
    return b"leastplan: line %d of the plan is %s; try --help\n" % (line, wrong)


# ---- starts and instances


def cells_of(sheet, interval, i, start, unit):
    """Where the page shows an operation: in each slot that it holds; nowhere where its type is unlimited."""
    if not ref.instances_of(sheet, i):
        return frozenset()
    return frozenset((ref.kind(sheet, i), (start + k) % interval, unit) for k in range(ref.busy(sheet, i)))


def shown(sheet, interval, plan):
    """All that the page shows of a plan."""
    return [cells_of(sheet, interval, i, *at) for i, at in enumerate(zip(*plan))]


def free_places(sheet, interval, i, taken):
    """The starts and instances of an operation whose cells are not taken; none where it would have one cell twice."""
    if ref.instances_of(sheet, i) and ref.busy(sheet, i) > interval:
        return []
    everywhere = itertools.product(range(sheet.horizon), ref.instance_range(sheet, i))
    return [at for at in everywhere if not cells_of(sheet, interval, i, *at) & taken]


def consistent_plan(rng, sheet, interval):
    """Each operation at any start, on any instance that is free there; None where one finds no place."""
    taken, places = set(), []
    for i in range(len(sheet.ops)):
        free = free_places(sheet, interval, i, taken)
        if not free:
            return None
        places.append(rng.choice(free))
        taken |= cells_of(sheet, interval, i, *places[-1])
    return [t for t, _ in places], [u for _, u in places]


def every_consistent_plan(sheet, interval):
    """All starts in the horizon, with all instances."""
    n = range(len(sheet.ops))
    for starts in itertools.product(range(sheet.horizon), repeat=len(n)):
        for units in itertools.product(*(ref.instance_range(sheet, i) for i in n)):
            if ref.consistent(sheet, interval, ref.full_table(starts, units)):
                yield starts, units


def moved(rng, sheet, interval, plan):
    """A consistent plan with one operation elsewhere, in free cells or in some of its own, at this start or another."""
    i = rng.randrange(len(sheet.ops))
    cells = shown(sheet, interval, plan)
    others = frozenset().union(*cells[:i], *cells[i + 1 :])
    start, unit = rng.choice(free_places(sheet, interval, i, others))
    return with_number(plan[0], i, start), with_number(plan[1], i, unit)


def with_number(numbers, i, number):
    return numbers[:i] + [number] + numbers[i + 1 :]


def faulty_plans(rng, sheet, interval, plan, most):
    """A consistent plan with one fault: some start, some instance, or two rivals in one cell."""
    starts, units = plan
    for start in (sheet.horizon, sheet.horizon + interval, most):
        yield with_number(starts, rng.randrange(len(starts)), start), units
    for i in one_of_each(rng, sheet):
        yield starts, with_number(units, i, ref.instance_range(sheet, i).stop)
        yield starts, with_number(units, i, most)
    yield from one_cell_twice(rng, sheet, interval, plan)


def one_of_each(rng, sheet):
    """An operation of a limited type and one of an unlimited type, as far as there are such."""
    limited = [i for i in range(len(sheet.ops)) if ref.instances_of(sheet, i)]
    others = [i for i in range(len(sheet.ops)) if i not in limited]
    return [rng.choice(some) for some in (limited, others) if some]


def one_cell_twice(rng, sheet, interval, plan):
    """Some operation moves to where a rival holds some or all of its cells; nothing where there are no rivals."""
    starts, units = plan
    pairs = [(i, j) for i in range(len(starts)) for j in range(len(starts)) if ref.rivals(sheet, i, j)]
    if pairs:
        i, j = rng.choice(pairs)
        there = cells_of(sheet, interval, j, starts[j], units[j])
        near = [t for t in range(sheet.horizon) if cells_of(sheet, interval, i, t, units[j]) & there]
        yield with_number(starts, i, rng.choice(near)), with_number(units, i, units[j])


def counted(numbers, count):
    """So many of the numbers, zeros after the last."""
    return (numbers + [0] * count)[:count]


def near_counts(plan):
    """One start, one instance, or one of both less or more."""
    n = len(plan[0])
    for a, b in ((-1, 0), (0, -1), (-1, -1), (1, 0), (0, 1), (1, 1)):
        yield counted(plan[0], n + a), counted(plan[1], n + b)


def every_count(plan):
    """Each count of starts with each count of instances."""
    for a, b in itertools.product(range(MOST_COUNT + 1), repeat=2):
        yield counted(plan[0], a), counted(plan[1], b)


# ---- lines


def lines_of(interval, plan):
    return ref.interval_lines(interval, (0, *plan, []))


def counted_lines(interval, plan):
    """Plans of any length, the last of them too long."""
    for count in range(MOST_COUNT + 1):
        yield lines_of(interval, [counted(numbers, count) for numbers in plan])


def strange_lines(text):
    """From a plan of an operation or more. Beside what may be wrong with the lines of any text: other answers, another
    order of lines, what follows a plan or goes before it, lengths, and great numbers."""
    yield from stored.malformations(text)
    head, interval, *rest = text.splitlines(keepends=True)
    for answer in (b"1", b"5", b"6", b"10"):
        yield text.replace(b"answer=0", b"answer=" + answer)
    yield b"".join([interval, head, *rest])
    yield b"".join([head, *rest, interval])
    for other in (b"\n", b" ", b"x", b"\0", b"at=0,0", b"loop=0\n", b"answer=7\n", b"interval=1\n", text):
        yield text + other
        yield other + text
    for byte in (b"\r\n", b"\r", b"\0", b"\n\n", b" \n"):
        yield text.replace(b"\n", byte)
    yield text.replace(b",", b", ")
    for length in (ref.SHEET_BYTES, ref.SHEET_BYTES + 1, 100000):
        yield text + b"\n" * (length - len(text))
        yield (text + b"at=0,0\n" * length)[:length]
    for place in (b"0,%d" % HUGE, b"%d,0" % HUGE, b"0,%d" % (2**64 - 1), b"%d,0" % (2**64 - 1)):
        yield text.replace(rest[0], b"at=" + place + b"\n")
