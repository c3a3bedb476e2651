#!/usr/bin/env python3
"""Loop sheets and interval plans as document 01 and slips 1 to 6 of 02 word them, by plain enumeration.

Independent of the Rattle crates: nothing here is taken from their code, their algorithms or their
outputs. Sheets are read with a regular expression for each kind of line; plans, instances and closed
walks are found by listing candidates in the order of the paper and taking the first that keeps the
rules. The only cuts are: a prefix of a candidate that already breaks a rule is not continued, more
operations of a type that hold one slot than it has instances count as such a break (no more of them is
not enough, and the instances are listed), walks are looked at up to N edges (a longer one passes an
operation twice, and what lies between is a closed walk: a bad one is itself shorter, and any other can
be cut out and the sum is no smaller), and a walk that cannot be made a bad closed one is not continued.
Sums over walks come from a table by length and ends, so all but plans can be had of large sheets too;
plans are slow, and for small sheets only.

As a program:  reference.py [COMMAND [name=number ..]] < SHEET   prints what leastplan prints; with 3< PLAN the
command page_of_plan too, with 3< SCRIPT the command table, and with 3< ANSWER the command judge, which
judge_reference.py answers.
"""

import itertools
import re
import sys

SHEET_BYTES = 4096

# The table of field ranges; r, lo, hi, i and j go by the sheet.
RANGES = {
    "H": (1, 128),
    "M": (1, 64),
    "R": (1, 8),
    "A": (0, 8),
    "D": (0, 32),
    "K": (1, 32),
    "N": (1, 24),
    "E": (0, 96),
    "d": (-64, 64),
    "b": (0, 8),
}

PLAIN = rb"(0|[1-9][0-9]{0,3})"
SIGNED = rb"(0|-?[1-9][0-9]{0,3})"


class Sheet:
    """A sheet as numbers: types are (A, D, K), operations are (r, lo, hi), edges are (i, j, d, b)."""

    def __init__(self, horizon, cap, types, ops, edges):
        self.horizon, self.cap = horizon, cap
        self.types, self.ops, self.edges = list(types), list(ops), list(edges)


def plain_sheet(horizon, cap, types, kinds, edges):
    """The sheet with types (A, D), whose K is 1, and operations of these kinds whose windows are the whole horizon."""
    ops = [(r, 0, horizon - 1) for r in kinds]
    return Sheet(horizon, cap, [(a, d, 1) for a, d in types], ops, edges)


def with_horizon(sheet, horizon):
    """The sheet with another horizon and windows that are the whole of it."""
    whole = Sheet(horizon, sheet.cap, sheet.types, sheet.ops, sheet.edges)
    return with_windows(whole, [(0, horizon - 1)] * len(sheet.ops))


def with_windows(sheet, windows):
    """The sheet with these windows (lo, hi), one for each operation."""
    ops = [(r, lo, hi) for r, (lo, hi) in zip(kinds(sheet), windows)]
    return Sheet(sheet.horizon, sheet.cap, sheet.types, ops, sheet.edges)


def with_busy(sheet, busy):
    """The sheet with these K, one for each type."""
    types = [(a, d, k) for (a, d, _), k in zip(sheet.types, busy)]
    return Sheet(sheet.horizon, sheet.cap, types, sheet.ops, sheet.edges)


def kind(sheet, i):
    """The number of an operation's type."""
    return sheet.ops[i][0]


def kinds(sheet):
    return [kind(sheet, i) for i in range(len(sheet.ops))]


def latency(sheet, i):
    return sheet.types[kind(sheet, i)][1]


def instances_of(sheet, i):
    return sheet.types[kind(sheet, i)][0]


def busy(sheet, i):
    """For how many slots an operation of a limited type holds its instance."""
    return sheet.types[kind(sheet, i)][2]


def window(sheet, i):
    """The first and the last clock at which an operation may start in a plan."""
    return sheet.ops[i][1:]


# ---- questions about the numbers of a sheet (3, 16)


def no_question(_):
    return 0


def window_question(operation):
    """A window whose first clock comes after its last."""
    _, lo, hi = operation
    return 16 if lo > hi else 0


def line_answer(values, limits, question=no_question):
    """The numbers of one line: 3 goes before what else the line is asked."""
    if not all(low <= value <= high for value, (low, high) in zip(values, limits)):
        return 3
    return question(values)


def type_limits():
    return [RANGES["A"], RANGES["D"], RANGES["K"]]


def op_limits(horizon, type_count):
    return [(0, type_count - 1), (0, horizon - 1), (0, horizon - 1)]


def edge_limits(op_count):
    return [(0, op_count - 1), (0, op_count - 1), RANGES["d"], RANGES["b"]]


def line_answers(sheet):
    """The answer to each line of a sheet that is handed in as numbers, from the top."""
    count, n = len(sheet.types), len(sheet.ops)
    yield line_answer([sheet.horizon], [RANGES["H"]])
    yield line_answer([sheet.cap], [RANGES["M"]])
    yield line_answer([count], [RANGES["R"]])
    yield from (line_answer(t, type_limits()) for t in sheet.types)
    yield line_answer([n], [RANGES["N"]])
    yield from (line_answer(o, op_limits(sheet.horizon, count), window_question) for o in sheet.ops)
    yield line_answer([len(sheet.edges)], [RANGES["E"]])
    yield from (line_answer(e, edge_limits(n)) for e in sheet.edges)


def sheet_answer(sheet):
    """The first refusal among the lines, or 0."""
    return next((answer for answer in line_answers(sheet) if answer), 0)


# ---- reading and writing (questions 1 to 3, 9, 16)


class Refused(Exception):
    """The first question answered "no"."""

    def __init__(self, answer):
        super().__init__(answer)
        self.answer = answer


class Lines:
    """The lines of a sheet from the top: 2 before 3 within a line, and what else the line is asked after that."""

    def __init__(self, data):
        self.data, self.at = data, 0

    def take(self, key, fields, limits, question=no_question):
        end = self.data.find(b"\n", self.at)
        if end < 0:
            raise Refused(2)
        numbers = [SIGNED if f == "d" else PLAIN for f in fields.split()]
        found = re.fullmatch(key + b"=" + b",".join(numbers), self.data[self.at : end], re.DOTALL)
        if not found:
            raise Refused(2)
        values = tuple(int(v) for v in found.groups())
        answer = line_answer(values, limits, question)
        if answer:
            raise Refused(answer)
        self.at = end + 1
        return values

    def one(self, key, field):
        return self.take(key, field, [RANGES[field]])[0]


def read_lines(lines):
    horizon = lines.one(b"horizon", "H")
    cap = lines.one(b"cap", "M")
    count = lines.one(b"types", "R")
    types = [lines.take(b"type", "A D K", type_limits()) for _ in range(count)]
    n = lines.one(b"ops", "N")
    ops = [lines.take(b"op", "r lo hi", op_limits(horizon, count), window_question) for _ in range(n)]
    e = lines.one(b"edges", "E")
    edges = [lines.take(b"edge", "i j d b", edge_limits(n)) for _ in range(e)]
    return Sheet(horizon, cap, types, ops, edges)


def read_to(data):
    """(answer, sheet or None, place): the place where reading stopped, at the line at fault."""
    if len(data) > SHEET_BYTES:
        return 1, None, SHEET_BYTES
    lines = Lines(data)
    try:
        sheet = read_lines(lines)
    except Refused as refusal:
        return refusal.answer, None, lines.at
    if lines.at != len(data):
        return 2, None, lines.at
    return 0, sheet, lines.at


def read_sheet(data):
    """(0, sheet), or the refusal 1, 2, 3 or 16 and None."""
    return read_to(data)[:2]


def line_at_fault(data):
    """The number, from 1, of the line at which a refused sheet is refused; with 1 that of byte 4,097."""
    return data[: read_to(data)[2]].count(b"\n") + 1


def lines_of(rows):
    return "".join(row + "\n" for row in rows).encode()


def list_rows(key, lists):
    return [key + "=" + ",".join("%d" % v for v in numbers) for numbers in lists]


def sheet_rows(sheet):
    rows = ["horizon=%d" % sheet.horizon, "cap=%d" % sheet.cap]
    for key, lists in (("type", sheet.types), ("op", sheet.ops), ("edge", sheet.edges)):
        rows += ["%ss=%d" % (key, len(lists))] + list_rows(key, lists)
    return rows


def sheet_text(sheet):
    return lines_of(sheet_rows(sheet))


# ---- rules of a plan


def total(sheet, interval, edge):
    i, _, d, b = edge
    return latency(sheet, i) + d - b * interval


def dependence_kept(sheet, interval, edge, starts):
    i, j = edge[0], edge[1]
    return starts[i] + total(sheet, interval, edge) <= starts[j]


def rivals(sheet, i, j):
    return i != j and kind(sheet, i) == kind(sheet, j) and instances_of(sheet, i) != 0


def held_slots(sheet, interval, i, start):
    """The slots in which an operation holds its instance, clock by clock, so that one comes again where K is above the
    interval; none of an unlimited type."""
    clocks = range(start, start + busy(sheet, i)) if instances_of(sheet, i) else []
    return [clock % interval for clock in clocks]


def meets_itself(sheet, interval, i, start):
    """It would hold a slot twice."""
    held = held_slots(sheet, interval, i, start)
    return len(set(held)) < len(held)


def share_a_slot(sheet, interval, i, start, j, other):
    """An operation at this start and another at that one hold a slot in common."""
    return not set(held_slots(sheet, interval, i, start)).isdisjoint(held_slots(sheet, interval, j, other))


def collide(sheet, interval, i, at, j, other):
    """Rivals, each at its (start, instance), on one instance in a slot that both hold."""
    return rivals(sheet, i, j) and at[1] == other[1] and share_a_slot(sheet, interval, i, at[0], j, other[0])


def units_kept(sheet, interval, places):
    """Of {operation: (start, instance)} none meets itself and no two collide."""
    return not any(meets_itself(sheet, interval, i, start) for i, (start, _) in places.items()) and not any(
        collide(sheet, interval, i, places[i], j, places[j]) for i, j in itertools.combinations(places, 2)
    )


def instance_range(sheet, i):
    return range(instances_of(sheet, i) or 1)


def start_range(sheet, i):
    """Starts inside the horizon (the frame), with the result not lost after its end, from lo to hi of the window."""
    lo, hi = window(sheet, i)
    return [t for t in range(sheet.horizon) if t + latency(sheet, i) <= sheet.horizon and lo <= t <= hi]


def is_plan(sheet, interval, starts, units):
    n = len(sheet.ops)
    return (
        all(starts[i] in start_range(sheet, i) for i in range(n))
        and all(dependence_kept(sheet, interval, e, starts) for e in sheet.edges)
        and all(units[i] in instance_range(sheet, i) for i in range(n))
        and units_kept(sheet, interval, dict(enumerate(zip(starts, units))))
    )


def order(n, first, second):
    """The order of two plans (starts, instances) of n operations. What a list does not have counts as 0."""
    for ours, theirs in zip(first, second):
        for t, other in zip(ours[:n], theirs[:n]):
            if t != other:
                return "before" if t < other else "after"
    return "equal"


# ---- the first plan


def first_list(choices, fits):
    """The first list, in the order of the choices, each prefix of which fits; None without one."""
    chosen = []

    def extend():
        if len(chosen) == len(choices):
            return True
        for value in choices[len(chosen)]:
            chosen.append(value)
            if fits(chosen) and extend():
                return True
            chosen.pop()
        return False

    return chosen if extend() else None


def slots_have_room(sheet, interval, starts):
    """The last placed operation does not meet itself, and fewer rivals than it has instances hold each of its slots."""
    last = len(starts) - 1
    before = [held_slots(sheet, interval, i, starts[i]) for i in range(last) if rivals(sheet, i, last)]
    held = held_slots(sheet, interval, last, starts[last])
    return not meets_itself(sheet, interval, last, starts[last]) and all(
        sum(slot in rival for rival in before) < instances_of(sheet, last) for slot in held
    )


def first_instances(sheet, interval, starts):
    """For starts of which none meets itself."""
    rows = range(len(starts))
    clashes = [[j for j in range(i) if collide(sheet, interval, i, (starts[i], 0), j, (starts[j], 0))] for i in rows]

    def fits(units):
        last = len(units) - 1
        return all(units[i] != units[last] for i in clashes[last])

    return first_list([instance_range(sheet, i) for i in rows], fits)


def first_plan(sheet, interval):
    """(starts, instances) of the plan before every other, or None."""
    found = []

    def fits(starts):
        last = len(starts) - 1
        for edge in sheet.edges:
            if max(edge[0], edge[1]) == last and not dependence_kept(sheet, interval, edge, starts):
                return False
        if not slots_have_room(sheet, interval, starts):
            return False
        if len(starts) < len(sheet.ops):
            return True
        units = first_instances(sheet, interval, starts)
        if units is not None:
            found.append(units)
        return units is not None

    starts = first_list([start_range(sheet, i) for i in range(len(sheet.ops))], fits)
    return None if starts is None else (list(starts), found[0])


# ---- walks and bad closed walks

NO_WALK = float("-inf")  # below every sum


def walk_sums(sheet, interval):
    """For 0 to N edges a table: the greatest sum over the walks of so many edges from row to column."""
    n = len(sheet.ops)
    tables = [[[0 if i == j else NO_WALK for j in range(n)] for i in range(n)]]
    for _ in range(n):
        longer = [[NO_WALK] * n for _ in range(n)]
        for row, shorter in zip(longer, tables[-1]):
            for edge in sheet.edges:
                row[edge[1]] = max(row[edge[1]], shorter[edge[0]] + total(sheet, interval, edge))
        tables.append(longer)
    return tables


def first_bad_walk(sheet, interval):
    """The bad closed walk with the fewest edges, the first of those; None without one."""
    edges, sums = sheet.edges, walk_sums(sheet, interval)

    def first_of(length):
        def fits(chain):
            """It is a walk, and the rest of the edges can close it with a sum above 0."""
            first, last = edges[chain[0]], edges[chain[-1]]
            if len(chain) > 1 and edges[chain[-2]][1] != last[0]:
                return False
            rest = sums[length - len(chain)][last[1]][first[0]]
            return sum(total(sheet, interval, edges[k]) for k in chain) + rest > 0

        return first_list([range(len(edges))] * length, fits)

    walks = (first_of(length) for length in range(1, len(sheet.ops) + 1))
    return next((walk for walk in walks if walk is not None), None)


# ---- services


def feasible(sheet, interval):
    """Questions 4 and 5: (answer, loop)."""
    if not 1 <= interval <= sheet.cap:
        return 4, []
    loop = first_bad_walk(sheet, interval)
    return (0, []) if loop is None else (5, loop)


def separations(sheet, interval):
    """(answer, table, loop): the greatest sum over walks of at least one edge from row to column, or NO_WALK."""
    answer, loop = feasible(sheet, interval)
    if answer:
        return answer, [], loop
    tables, n = walk_sums(sheet, interval)[1:], range(len(sheet.ops))
    return 0, [[max(table[i][j] for table in tables) for j in n] for i in n], []


def earliest_starts(sheet, interval):
    """(answer, starts, loop): a start is its own lo, or what the walks that end there ask if that is more, each from
    the lo of the operation where it begins."""
    answer, table, loop = separations(sheet, interval)
    first = [window(sheet, i)[0] for i in range(len(sheet.ops))]
    asked = [[t + cell for t, cell in zip(first, column)] for column in zip(*table)]
    return answer, [max(t, *walks) for t, walks in zip(first, asked)], loop


def plan_at(sheet, interval):
    """(answer, starts, instances, loop); what an answer does not give is empty."""
    answer, loop = feasible(sheet, interval)
    if answer:
        return answer, [], [], loop
    plan = first_plan(sheet, interval)
    if plan is None:
        return 6, [], [], []
    return 0, plan[0], plan[1], []


def least_interval(sheet):
    for interval in range(1, sheet.cap + 1):
        if plan_at(sheet, interval)[0] == 0:
            return 0, interval
    return 7, 0


def recurrence_bound(sheet):
    for interval in range(1, sheet.cap + 1):
        if first_bad_walk(sheet, interval) is None:
            return 0, interval
    return 8, 0


def resource_bound(sheet):
    bound = 1
    for r, (a, _, k) in enumerate(sheet.types):
        count = kinds(sheet).count(r)
        if a != 0 and count != 0:
            bound = max(bound, k, -(-count * k // a))
    return bound


def loop_rows(loop):
    """The line of refusal 5; none without a loop."""
    return ["loop=" + ",".join(str(k) for k in loop)] if loop else []


def interval_rows(interval, plan):
    """The lines that leastplan prints for one interval."""
    answer, starts, units, loop = plan
    rows = ["answer=%d" % answer, "interval=%d" % interval] + loop_rows(loop)
    return rows + ["at=%d,%d" % at for at in zip(starts, units)]


def interval_lines(interval, plan):
    return lines_of(interval_rows(interval, plan))


def plan_text(interval, plan):
    """(answer, text) from what plan_at gives: the text only with 0."""
    return plan[0], interval_lines(interval, plan) if plan[0] == 0 else b""


def report(sheet):
    """What leastplan prints for an accepted sheet."""
    out = b""
    for interval in range(1, sheet.cap + 1):
        plan = plan_at(sheet, interval)
        out += interval_lines(interval, plan)
        if plan[0] == 0:
            return out
    return out + b"answer=7\n"


def leastplan(data):
    """The whole output of leastplan for the bytes of its standard input."""
    answer, sheet = read_sheet(data)
    return b"answer=%d\n" % answer if answer else report(sheet)


# ---- slot order


def pair_members(pair):
    """The operations i < j with j * (j - 1) / 2 + i = pair."""
    j = 1
    while j * (j + 1) // 2 <= pair:
        j += 1
    return pair - j * (j - 1) // 2, j


def slot_order(sheet, interval, pair):
    """(answer, order)"""
    return slot_order_in(sheet, interval, plan_at(sheet, interval), pair)


def slot_order_in(sheet, interval, plan, pair):
    """The same from what plan_at gives, so that it need not be found again for each pair."""
    answer, starts, _, _ = plan
    if answer:
        return answer, 0
    n = len(sheet.ops)
    if pair >= n * (n - 1) // 2:
        return 14, 0
    i, j = pair_members(pair)
    if not rivals(sheet, i, j):
        return 15, 0
    a, b = starts[i] % interval, starts[j] % interval
    return 0, 0 if a == b else 1 if a < b else 2


# ---- placing: a table is a list of 24 entries (placed, start, instance)

MOST_OPERATIONS = 24


def new_table():
    return [(False, 0, 0)] * MOST_OPERATIONS


def places_in(table):
    """{operation: (start, instance)} of what is placed."""
    return {i: (start, unit) for i, (placed, start, unit) in enumerate(table) if placed}


def consistent(sheet, interval, table):
    n = len(sheet.ops)
    for i, (placed, start, unit) in enumerate(table):
        if not placed and (start, unit) != (0, 0):
            return False
        if placed and i >= n:
            return False
        if placed and not (0 <= start < sheet.horizon and unit in instance_range(sheet, i)):
            return False
    return units_kept(sheet, interval, places_in(table))


def before_placing(sheet, interval, table, op, start):
    """Questions 4 and 10 to 12, which a placement, an offer and a booking all meet first."""
    if not 1 <= interval <= sheet.cap:
        return 4
    if not consistent(sheet, interval, table):
        return 10
    if not (0 <= op < len(sheet.ops) and 0 <= start < sheet.horizon):
        return 11
    return 12 if table[op][0] else 0


def free_instances(sheet, interval, table, op, start):
    """Those that the operation could have, in their order, less those that rivals hold in a slot that it would hold;
    none where it would meet itself."""
    if meets_itself(sheet, interval, op, start):
        return []
    taken = [
        unit
        for i, (other, unit) in places_in(table).items()
        if rivals(sheet, i, op) and share_a_slot(sheet, interval, i, other, op, start)
    ]
    return [unit for unit in instance_range(sheet, op) if unit not in taken]


def with_entry(table, i, entry):
    return table[:i] + [entry] + table[i + 1 :]


def place(sheet, interval, table, op, start):
    """(answer, instance, table); the table is the same with a refusal."""
    answer = before_placing(sheet, interval, table, op, start)
    if answer:
        return answer, 0, table
    free = free_instances(sheet, interval, table, op, start)
    return (0, free[0], with_entry(table, op, (True, start, free[0]))) if free else (13, 0, table)


NO_OFFER = (0, 0, 0)


def make_offer(sheet, interval, table, op, start):
    """(answer, offer): an offer names operation, start and instance."""
    answer = before_placing(sheet, interval, table, op, start)
    if answer:
        return answer, NO_OFFER
    free = free_instances(sheet, interval, table, op, start)
    return (0, (op, start, free[0])) if free else (13, NO_OFFER)


def book(sheet, interval, table, offer):
    """(answer, instance, table), as of a placement: 17 where the offered instance is none of the free ones."""
    op, start, unit = offer
    answer = before_placing(sheet, interval, table, op, start)
    if not answer and unit not in free_instances(sheet, interval, table, op, start):
        answer = 17
    return (answer, 0, table) if answer else (0, unit, with_entry(table, op, (True, start, unit)))


# ---- the page: the reservation table of a plan that is handed in, or of what is placed

MOST_INSTANCES = RANGES["A"][1]
PAGE_LINE = 4 + 5 * MOST_INSTANCES + 1  # bytes, with the line feed
LONGEST_PAGE = RANGES["R"][1] * (1 + RANGES["M"][1]) * PAGE_LINE  # a heading and a line for each slot of each type


def limited_types(sheet):
    return [r for r, (instances, *_) in enumerate(sheet.types) if instances != 0]


def page_length(sheet, interval):
    """The bytes of a page, whatever the plan."""
    return len(limited_types(sheet)) * (1 + interval) * PAGE_LINE


def reservation_rows(sheet, interval, table):
    """For each limited type its heading and a row for each slot: which operation holds each of its instances there."""
    held = {
        (kind(sheet, i), slot, unit): i
        for i, (start, unit) in places_in(table).items()
        for slot in held_slots(sheet, interval, i, start)
    }
    for r in limited_types(sheet):
        yield "type%5d" % r + " " * 35
        instances = sheet.types[r][0]
        for slot in range(interval):
            cells = ["%5s" % held.get((r, slot, unit), "-") for unit in range(instances)]
            yield "%4d" % slot + "".join(cells) + " " * 5 * (MOST_INSTANCES - instances)


def full_table(starts, units):
    """The placing table in which operation i is placed at start i on instance i."""
    placed = [(True, *at) for at in zip(starts, units)]
    return placed + new_table()[len(placed) :]


def page_answer(sheet, interval, starts, units, room):
    """Questions 4, 9 and 10."""
    if not 1 <= interval <= sheet.cap:
        return 4
    if room < page_length(sheet, interval):
        return 9
    if {len(starts), len(units)} != {len(sheet.ops)}:
        return 10
    return 0 if consistent(sheet, interval, full_table(starts, units)) else 10


def page(sheet, interval, starts, units, room):
    """(answer, text) in a buffer of this room: the text only with 0."""
    answer = page_answer(sheet, interval, starts, units, room)
    return answer, b"" if answer else lines_of(reservation_rows(sheet, interval, full_table(starts, units)))


PLAN_LINES = b"answer=0\ninterval=%s\n((?:at=%s,%s\n){0,%d})" % (PLAIN, PLAIN, PLAIN, MOST_OPERATIONS)


def plan_of_lines(text):
    """(interval, starts, instances) of a plan's lines, as `plan` prints them; None where the text is none."""
    found = re.fullmatch(PLAN_LINES, text)
    if not found:
        return None
    places = [(int(t), int(u)) for t, u in re.findall(rb"at=(.*),(.*)\n", found[2])]
    return int(found[1]), [t for t, _ in places], [u for _, u in places]


def plan_line_at_fault(text):
    """The number, from 1, of the first line that makes the text no plan's lines: one that is not as it should be, is
    missing, or is one too many."""
    forms = [b"answer=0\n", b"interval=%s\n" % PLAIN] + [b"at=%s,%s\n" % (PLAIN, PLAIN)] * MOST_OPERATIONS
    lines = re.findall(rb"[^\n]*\n|[^\n]+", text)
    fit = itertools.takewhile(lambda pair: re.fullmatch(*pair), zip(forms, lines))
    return len(list(fit)) + 1


# ---- a script: lines that each ask for an offer, a booking or a placement

MOST_STEPS = 1024
STEPS = [
    rb"(offer)=%s,%s\n" % (PLAIN, PLAIN),
    rb"(book)=%s,%s,%s\n" % (PLAIN, PLAIN, PLAIN),
    rb"(place)=%s,%s\n" % (PLAIN, PLAIN),
]


def step_of(line):
    """The key and the numbers of one line, None where it is malformed."""
    found = next(filter(None, (re.fullmatch(step, line) for step in STEPS)), None)
    return found and (found[1].decode(), *map(int, found.groups()[1:]))


def steps_of(text):
    """One for each line, the last one too if it has no line feed; None for one that is malformed or too many."""
    lines = re.findall(rb"[^\n]*\n|[^\n]+", text)
    return [step_of(line) if k < MOST_STEPS else None for k, line in enumerate(lines)]


def script_of_lines(text):
    """The steps of a script; None where a line is none."""
    steps = steps_of(text)
    return None if None in steps else steps


def script_line_at_fault(text):
    """The number, from 1, of the first line that makes the text no script."""
    return steps_of(text).index(None) + 1


def step(sheet, interval, table, key, *numbers):
    """(answer, instance, table) of one line."""
    if key == "offer":
        answer, (_, _, unit) = make_offer(sheet, interval, table, *numbers)
        return answer, unit, table
    return book(sheet, interval, table, numbers) if key == "book" else place(sheet, interval, table, *numbers)


# ---- commands: what `leastplan COMMAND` prints for an accepted sheet; plan_of(sheet, interval) gives the plan


def bounds_rows(sheet, _):
    answer, interval = recurrence_bound(sheet)
    rows = ["answer=%d" % answer] + ([] if answer else ["recurrence=%d" % interval])
    return rows + ["answer=0", "resource=%d" % resource_bound(sheet)]


def dependence_rows(interval, answer, loop, rows):
    """An answer of the dependence part: with 4 it stands alone."""
    return ["answer=%d" % answer] + ([] if answer == 4 else ["interval=%d" % interval]) + loop_rows(loop) + rows


def starts_rows(sheet, _, interval):
    answer, starts, loop = earliest_starts(sheet, interval)
    return dependence_rows(interval, answer, loop, ["start=%d" % t for t in starts])


def separations_rows(sheet, _, interval):
    answer, table, loop = separations(sheet, interval)
    rows = ["row=" + ",".join("-" if cell == NO_WALK else str(cell) for cell in row) for row in table]
    return dependence_rows(interval, answer, loop, rows)


def plan_rows(sheet, plan_of, interval):
    plan = plan_of(sheet, interval)
    return ["answer=4"] if plan[0] == 4 else interval_rows(interval, plan)


def order_rows(sheet, plan_of, interval, pair):
    plan = plan_of(sheet, interval)
    answer, value = slot_order_in(sheet, interval, plan, pair)
    return ["answer=%d" % answer] + loop_rows(plan[3]) + ([] if answer else ["order=%d" % value])


def page_rows(sheet, plan_of, interval):
    answer, starts, units, loop = plan_of(sheet, interval)
    answer = answer or page_answer(sheet, interval, starts, units, page_length(sheet, interval))
    refused = ["answer=%d" % answer] + loop_rows(loop)
    return refused if answer else list(reservation_rows(sheet, interval, full_table(starts, units)))


def table_rows(sheet, script, interval):
    """What each step is answered, then what the table holds in the end, as numbers and as a page."""
    if not 1 <= interval <= sheet.cap:
        return ["answer=4"]
    table, rows = new_table(), []
    for one in script:
        answer, unit, table = step(sheet, interval, table, *one)
        rows += ["answer=%d" % answer] + ([] if answer else ["instance=%d" % unit])
    rows += list_rows("entry", table[: len(sheet.ops)])
    return rows + list(reservation_rows(sheet, interval, table))


def judge_rows(sheet, text):
    """What is answered to another supplier's plan or denial; that part stands on this one."""
    from judge_reference import judge_bytes

    return ["answer=%d" % judge_bytes(sheet_text(sheet), text)]


# The arguments that a command takes, each once, in any order; and its lines.
COMMANDS = {
    "bounds": (set(), bounds_rows),
    "starts": ({"interval"}, starts_rows),
    "separations": ({"interval"}, separations_rows),
    "plan": ({"interval"}, plan_rows),
    "order": ({"interval", "pair"}, order_rows),
    "page": ({"interval"}, page_rows),
    "table": ({"interval"}, table_rows),
    "judge": (set(), judge_rows),
    "check": (set(), lambda sheet, _: ["answer=0"]),
    "write": (set(), lambda sheet, _: sheet_rows(sheet)),
}


# What the script asks of the program for `page` with a plan; no command to be typed.
PAGE_OF_PLAN = "page_of_plan"
ALL_COMMANDS = {**COMMANDS, PAGE_OF_PLAN: COMMANDS["page"]}


def arguments(words):
    """The numbers by name; None where the first word is no command or the others are not its arguments."""
    given = [re.fullmatch("([a-z]+)=" + PLAIN.decode(), word) for word in words[1:]]
    if words[0] not in ALL_COMMANDS or not all(given):
        return None
    numbers = {found[1]: int(found[2]) for found in given}
    return numbers if len(numbers) == len(given) and set(numbers) == ALL_COMMANDS[words[0]][0] else None


def plan_given(text, interval):
    """In place of plan_at, the plan of a plan's lines; None where they are none or of another interval."""
    plan = plan_of_lines(text)
    return None if plan is None or plan[0] != interval else lambda *_: (0, *plan[1:], [])


# The commands that read a second file, and what each has from its text; None where the text is not as it should be.
SECOND = {
    PAGE_OF_PLAN: plan_given,
    "table": lambda text, interval: script_of_lines(text),
    "judge": lambda text: text,
}


def is_asked(words, second):
    """The words ask for something and, where they ask for a second file, its text is as it should be."""
    numbers = arguments(words)
    return numbers is not None and (words[0] not in SECOND or SECOND[words[0]](second, **numbers) is not None)


def ask(words, data, plan_of=plan_at, second=b""):
    """The whole output of a command for the bytes of its standard input and of its second file, if it reads one;
    nothing where the words or the second file are wrong."""
    if not is_asked(words, second):
        return b""
    answer, sheet = read_sheet(data)
    if answer:
        line = ["line=%d" % line_at_fault(data)] if words[0] == "check" else []
        return lines_of(["answer=%d" % answer] + line)
    numbers = arguments(words)
    given = SECOND[words[0]](second, **numbers) if words[0] in SECOND else plan_of
    return lines_of(ALL_COMMANDS[words[0]][1](sheet, given, **numbers))


def main():
    data, words = sys.stdin.buffer.read(), sys.argv[1:]
    second = open(3, "rb").read() if words and words[0] in SECOND else b""
    sys.stdout.buffer.write(ask(words, data, second=second) if words else leastplan(data))


if __name__ == "__main__":
    main()
