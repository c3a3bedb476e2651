"""Scripts for test_placing, and what it prints for them by the reference.

A script is a list of lines (key, numbers); crates/test_placing/src/script.rt says what each does.
"""

import itertools

import reference as ref
import sheets
from reference import plain_sheet, with_busy, with_windows
from sheets import HUGE


# ---- what a script prints


def text_of(script):
    return b"".join(b"%s=%s\n" % (key, b",".join(b"%d" % n for n in numbers)) for key, *numbers in script)


def answers_of(sheet, script):
    """The lines that the program prints; a sheet that was refused when it was read is None."""
    table = ref.new_table()
    for key, *numbers in script:
        if key == b"new":
            table = ref.new_table()
            yield b"new=%d\n" % new_answer(sheet, *numbers)
        elif key == b"entry":
            table = with_entry(table, *numbers)
        elif key == b"consistent":
            yield b"consistent=%d\n" % ref.consistent(sheet, numbers[0], table)
        elif key == b"offer":
            answer, offer = offered(sheet, table, *numbers)
            yield b"offer=%d,%d,%d,%d\n" % (answer, *offer)
        elif key in PUTS_IN:
            answer, unit, table = PUTS_IN[key](sheet, table, *numbers)
            yield b"%s=%d,%d\n" % (key, answer, unit)
        else:
            for i, entry in enumerate(table):
                if entry != NOTHING:
                    yield b"entry=%d,%d,%d,%d\n" % (i, *entry)


NOTHING = (False, 0, 0)  # the entry of an operation that is not placed


def with_entry(table, i, p, start, unit):
    return ref.with_entry(table, i, (p != 0, start, unit))


def sheet_answer(sheet):
    """What a sheet handed in as numbers is answered; one that was refused when it was read is all 0: out of range."""
    return 3 if sheet is None else ref.sheet_answer(sheet)


def new_answer(sheet, interval):
    return sheet_answer(sheet) or (0 if 1 <= interval <= sheet.cap else 4)


def placed(sheet, table, interval, op, start):
    refused = sheet_answer(sheet)
    return (refused, 0, table) if refused else ref.place(sheet, interval, table, op, start)


def offered(sheet, table, interval, op, start):
    refused = sheet_answer(sheet)
    return (refused, ref.NO_OFFER) if refused else ref.make_offer(sheet, interval, table, op, start)


def booked(sheet, table, interval, *offer):
    refused = sheet_answer(sheet)
    return (refused, 0, table) if refused else ref.book(sheet, interval, table, offer)


# The lines that put an operation in, and what they are answered.
PUTS_IN = {b"place": placed, b"book": booked}


# ---- scripts


def handed_in(entries, intervals, op, start):
    """A table that is handed in: whether it is consistent, a placing into it, and what it holds then."""
    script = [(b"new", intervals[0])] + [(b"entry", *e) for e in entries]
    for interval in intervals:
        script += [(b"consistent", interval), (b"place", interval, op, start)]
    return script + [(b"table", 0)]


# Operations 0, 1 and 3 are rivals with two instances, 2 and 4 are of an unlimited type, 5 has its instance alone.
SIX = plain_sheet(4, 3, [(2, 1), (0, 1), (1, 1)], [0, 0, 1, 0, 1, 2], [])


def single_entries():
    """Each number of an entry at both sides of its limit, placed or not, of each kind of operation and past them."""
    starts, units = (0, 1, 3, 4, 5, HUGE), (0, 1, 2, 3, HUGE)
    for i in (0, 2, 5, 6, 23):
        script = []
        for p, t, u in itertools.product((0, 1), starts, units):
            script += handed_in([(i, p, t, u)], [2], 1, 1)
        yield SIX, script


def entry_pairs():
    """Two placed entries in each way: rivals, operations of an unlimited type, operations of different types."""
    for i, j in ((0, 1), (1, 3), (2, 4), (0, 5), (3, 4)):
        script = []
        for t, u, v, w in itertools.product((0, 1), (0, 1), range(4), (0, 1)):
            script += handed_in([(i, 1, t, u), (j, 1, v, w)], [1, 2, 3], 3, 0)
        half = len(script) // 2
        yield SIX, script[:half]
        yield SIX, script[half:]


def first_question():
    """An inconsistent table with other faults: 3 and 4 come before 10, and 10 before 11, 12 and 13."""
    faulty, full = [(6, 1, 0, 0)], [(0, 1, 0, 0), (1, 1, 0, 1), (5, 1, 3, 0)]
    targets = [(0, 2, 0), (4, 2, 0), (2, 6, 0), (2, 2, 4), (2, HUGE, HUGE), (2, 0, 0), (2, 3, 0), (2, 3, 2), (2, 3, 1)]
    for entries in (faulty + full, full, faulty, []):
        script = [(b"new", 2)] + [(b"entry", *e) for e in entries]
        for interval, op, start in targets:
            script += [(b"place", interval, op, start), (b"table", 0)]
        yield SIX, script
    script = [(b"entry", 0, 1, 0, 0), (b"new", 0), (b"new", 1)]
    yield None, script + [(b"entry", 1, 0, 0, 1), (b"place", 1, 0, 0), (b"table", 0)]


def whole_tables():
    """24 operations at the ends of every range."""
    wide = plain_sheet(128, 64, [(8, 0)], [0] * 24, [])
    full = [(i, 1, 127 - i // 8, i % 8) for i in range(24)]
    changes = [(23, 1, 127, 7), (23, 1, 61, 7), (23, 1, 63, 7), (23, 1, 125, 8), (23, 0, 0, 0)]
    for changed in changes + [(0, 1, 128, 0), (23, 0, 0, 7)]:
        entries = [e for e in full if e[0] != changed[0]] + [changed]
        yield wide, handed_in(entries, [64, 63, 32, 1], 23, 127)
    yield wide, [(b"place", 1, op, op * 5) for op in range(24)] + [(b"table", 0)]
    yield wide, [(b"place", 3, op, op // 8) for op in range(24)] + [(b"place", 3, 23, 0), (b"table", 0)]
    unlimited = plain_sheet(1, 1, [(0, 1)], [0] * 24, [])
    yield unlimited, [(b"place", 1, op, 0) for op in range(25)] + [(b"table", 0)]


def steps(interval):
    """Operations and starts in and out of range; the later ones ask about another interval with the same table."""
    script = [(b"new", interval)]
    for step in range(32):
        script.append((b"place", interval + (step >= 20), step * 5 % 6, step * 3 % 7))
    return script + [(b"table", 0)]


def random_tables(rng, sheet, rounds):
    """Tables that placing made, with one entry changed."""
    n = len(sheet.ops)
    for _ in range(rounds):
        interval = rng.randint(1, sheet.cap)
        table = ref.new_table()
        for op in range(n):
            table = ref.place(sheet, interval, table, op, rng.randrange(sheet.horizon))[2]
        entries = [(i, *entry) for i, entry in enumerate(table) if entry[0]]
        changed = (rng.randint(0, n), rng.randint(0, 1), rng.randint(0, sheet.horizon), rng.randint(0, 3))
        target = rng.randint(0, n), rng.randint(0, sheet.horizon)
        yield from handed_in(entries + [changed], [interval, interval + 1], *target)


def random_scripts(seed, count, *makers):
    """On sheets that the makers draw by turns: the first few, and the first so many that have some room."""
    rng = sheets.seeded(seed)
    made = [makers[k % len(makers)](rng) for k in range(600)]
    roomy = [s for s in made if len(s.ops) > 3 and s.horizon > 4 and s.cap > 3]
    for sheet in made[:6] + roomy[:count]:
        yield sheet, [line for interval in range(4) for line in steps(interval)]
        yield sheet, list(random_tables(rng, sheet, 12))


def late_results():
    """No plan, as results come after the horizon; a table asks of a start only that it lies in the horizon."""
    for latency in (2, 3):
        sheet = plain_sheet(2, 2, [(1, latency), (0, 32)], [0, 0, 1], [])
        script = [(b"new", 2)] + [(b"place", 2, op, start) for start in (2, 1, 0) for op in (0, 1, 2)] + [(b"table", 0)]
        yield sheet, script + handed_in([(0, 1, 1, 0), (2, 1, 1, 0)], [1, 2], 1, 0)


SINGLE_CLOCKS = [(3, 3), (0, 0), (2, 2), (3, 3), (0, 0), (1, 1)]


def outside_windows():
    """A table takes an operation at any start in the horizon, inside its window and outside."""
    narrow = with_windows(SIX, SINGLE_CLOCKS)
    script = [(b"new", 2)] + [(b"place", 2, op, start) for start in (4, 3, 0, 1) for op in (0, 1, 2, 3, 4, 5)]
    yield narrow, script + [(b"table", 0)]
    for start in range(4):
        yield narrow, handed_in([(0, 1, start, 0), (2, 1, start, 0)], [1, 2, 3], 1, start)


def upside_down():
    """A window that ends before it begins: 16 as numbers, whatever else is wrong after that line. From a text no sheet
    is read, which is 3."""
    yield with_windows(SIX, [(3, 2)] + SINGLE_CLOCKS[1:]), [(b"entry", 6, 1, 0, 0)] + steps(0) + steps(2)


# ---- offers and bookings


def some_table(rng, sheet, interval):
    """Some operations, each at any start on any instance that was free there; in any order."""
    table, n = ref.new_table(), len(sheet.ops)
    for op in rng.sample(range(n), rng.randint(0, n)):
        offer = op, rng.randrange(sheet.horizon), rng.choice(ref.instance_range(sheet, op))
        table = ref.book(sheet, interval, table, offer)[2]
    return table


def faulty_tables(rng, sheet, interval, table):
    """The table with each fault that question 10 names, as far as the sheet has room for it."""
    n, i = len(sheet.ops), rng.randrange(len(sheet.ops))
    faults = [(i, (True, sheet.horizon, 0)), (i, (True, 0, ref.instance_range(sheet, i).stop))]
    faults += [(i, (False, 1, 0)), (i, (False, 0, 1))]
    if n < ref.MOST_OPERATIONS:
        faults += [(n, (True, 0, 0)), (ref.MOST_OPERATIONS - 1, (False, 0, 1))]
    faults += [(j, (True, 0, 0)) for j in range(n) if ref.instances_of(sheet, j) and ref.busy(sheet, j) > interval][:1]
    yield from (ref.with_entry(table, *fault) for fault in faults)
    for j, k in itertools.combinations(range(n), 2):
        if ref.rivals(sheet, j, k):
            starts = range(min(ref.busy(sheet, j), sheet.horizon))
            yield from (ref.with_entry(ref.with_entry(table, j, (True, 0, 0)), k, (True, t, 0)) for t in starts)
            return


def any_table(rng, sheet, interval):
    """One of four has a fault."""
    table = some_table(rng, sheet, interval)
    return rng.choice(list(faulty_tables(rng, sheet, interval, table))) if rng.random() < 0.25 else table


def any_target(rng, sheet):
    """An operation and a start, one of them out of range now and then."""
    n, horizon = len(sheet.ops), sheet.horizon
    return rng.choice([n, HUGE, *list(range(n)) * 3]), rng.choice([horizon, HUGE, *list(range(horizon)) * 3])


def near_instances(sheet, op):
    """Instances at both sides of each limit: of the operation's type, of all types, of a line."""
    last = ref.instance_range(sheet, op).stop if op < len(sheet.ops) else 1
    return sorted({0, last - 1, last, ref.MOST_INSTANCES, HUGE})


def given(table):
    """The lines that hand a table in."""
    return [(b"new", 1)] + [(b"entry", i, *entry) for i, entry in enumerate(table) if entry != NOTHING]


def tried(table, line):
    """A booking, after which the entry is what it was."""
    op = line[2]
    return [line] + ([(b"entry", op, *table[op])] if op < ref.MOST_OPERATIONS else [])


def offer_and_booking(rng, sheet, interval, table):
    """An offer, which leaves the table as it is, and the placement; then what was offered is booked on the same table,
    which comes out the same. Where nothing was offered, another booking is refused too."""
    target = any_target(rng, sheet)
    answer, offer = ref.make_offer(sheet, interval, table, *target)
    booking = (*target, rng.choice(near_instances(sheet, target[0]))) if answer else offer
    script = given(table) + [(b"offer", interval, *target), (b"table", 0), (b"place", interval, *target), (b"table", 0)]
    return script + given(table) + [(b"book", interval, *booking), (b"table", 0)]


def offers_from_elsewhere(rng, sheet, interval, table, other):
    """Offers that were made on another table, at another interval, or for another sheet."""
    places = [(sheet, interval, some_table(rng, sheet, interval)), (sheet, rng.randint(1, sheet.cap), table)]
    apart = rng.randint(1, other.cap)
    places.append((other, apart, some_table(rng, other, apart)))
    for there in places:
        _, offer = ref.make_offer(*there, *any_target(rng, there[0]))
        yield from tried(table, (b"book", interval, *offer))


def every_booking(rng, sheet, interval, table):
    """Each instance beside a limit, of some operations at some starts."""
    for op, start in [any_target(rng, sheet) for _ in range(4)]:
        for unit in near_instances(sheet, op):
            yield from tried(table, (b"book", interval, op, start, unit))


def random_offers(seed, count, *makers):
    """On sheets that the makers draw by turns: a table that has a fault or none, and all of the above on it."""
    rng = sheets.seeded(seed)
    for k in range(count):
        sheet, other = makers[k % len(makers)](rng), sheets.small_sheet(rng)
        interval = rng.randint(1, sheet.cap)
        table = any_table(rng, sheet, interval)
        script = [line for _ in range(3) for line in offer_and_booking(rng, sheet, interval, table)]
        script += given(table) + list(offers_from_elsewhere(rng, sheet, interval, table, other))
        yield sheet, script + list(every_booking(rng, sheet, interval, table)) + [(b"table", 0)]


def offers_on_faults(seed, first, make):
    """Every fault of a table, with targets in range and out of it."""
    rng = sheets.seeded(seed)
    for sheet in [first] + [make(rng) for _ in range(5)]:
        interval = rng.randint(1, sheet.cap)
        for table in faulty_tables(rng, sheet, interval, some_table(rng, sheet, interval)):
            yield sheet, offer_and_booking(rng, sheet, interval, table)


def single_bookings():
    """Each number of an offer at both sides of its limit, of each kind of operation, with nothing placed, a rival on
    each instance, and operations that are no rivals on the same."""
    tables = [{}, {1: (True, 1, 0)}, {3: (True, 3, 1)}, {1: (True, 3, 1), 3: (True, 1, 0)}]
    tables += [{4: (True, 1, 0), 5: (True, 1, 0)}]
    for entries in tables:
        table = [entries.get(i, NOTHING) for i in range(ref.MOST_OPERATIONS)]
        script = given(table)
        for op, start, unit in itertools.product((0, 2, 5), (0, 1, 3, 4), (0, 1, 2, ref.MOST_INSTANCES, HUGE)):
            script += tried(table, (b"book", 2, op, start, unit))
        offers = [(b"offer", 2, op, start) for op, start in itertools.product((0, 1, 2, 3, 5, 6), (0, 3, 4))]
        yield SIX, script + offers + [(b"table", 0)]


def first_question_of_bookings():
    """A table that is inconsistent or full, with other faults: 3 and 4 come before 10, 10 before 11, 11 before 12, and
    12 before 13 and 17. What can be booked stays, and is placed already for the next."""
    faulty, full = [(6, 1, 0, 0)], [(0, 1, 0, 0), (1, 1, 0, 1), (5, 1, 3, 0)]
    targets = [(0, 6, 4), (4, 2, 0), (2, 6, 0), (2, 0, 4), (2, HUGE, HUGE), (2, 0, 0), (2, 3, 0), (2, 3, 2), (2, 3, 1)]
    for entries in (faulty + full, full, faulty, []):
        script = [(b"new", 2)] + [(b"entry", *e) for e in entries]
        for target in targets:
            script += [(b"offer", *target), (b"table", 0)]
            for unit in (HUGE, 2, 1, 0):
                script += [(b"book", *target, unit), (b"table", 0)]
        yield SIX, script
    yield None, [(b"entry", 1, 0, 0, 1), (b"offer", 1, 0, 0), (b"book", 1, 0, 0, 0), (b"offer", 0, 0, 0), (b"table", 0)]


def whole_bookings():
    """24 operations at the ends of every range: instances from the highest down, until none is left in the slot."""
    wide = plain_sheet(128, 64, [(8, 0)], [0] * 24, [])
    script = [(b"new", 64)]
    for op in range(24):
        start, unit = (127 if op % 2 else 63), 7 - op // 2
        script += [(b"offer", 64, op, start), (b"book", 64, op, start, unit if unit >= 0 else 0)]
    yield wide, script + [(b"table", 0)]
    script = [(b"book", 3, op, 125 + op % 3, 7 - op // 3) for op in range(24)]
    yield wide, script + [(b"table", 0), (b"offer", 3, 23, 0), (b"book", 3, 23, 0, 8), (b"consistent", 3)]
    unlimited = plain_sheet(1, 1, [(0, 1)], [0] * 24, [])
    script = [(b"book", 1, op, 0, unit) for op in range(25) for unit in (1, 0)]
    yield unlimited, script + [(b"table", 0), (b"offer", 1, 23, 0)]


def random_steps(rng, sheet, interval, count):
    """Offers, bookings and placements one after the other on a table that begins new, as (key, numbers): what was
    offered last is booked, on that instance or on another, or something else is asked."""
    table, offer, steps = ref.new_table(), ref.NO_OFFER, []
    for _ in range(count):
        op, start = any_target(rng, sheet)
        others = [(*place, rng.choice(near_instances(sheet, place[0]))) for place in (offer[:2], (op, start))]
        asked = [("offer", op, start), ("offer", op, start), ("book", *offer), ("place", op, start)]
        steps.append(rng.choice(asked + [("book", *other) for other in others]))
        if steps[-1][0] == "offer":
            offer = ref.make_offer(sheet, interval, table, op, start)[1]
        table = ref.step(sheet, interval, table, *steps[-1])[2]
    return steps


def steps_one_by_one(seed, count, *makers):
    """The same with the table after each step."""
    rng = sheets.seeded(seed)
    for k in range(count):
        sheet = makers[k % len(makers)](rng)
        interval, script = rng.randint(1, sheet.cap), []
        for key, *numbers in random_steps(rng, sheet, interval, 3 * len(sheet.ops)):
            script += [(key.encode(), interval, *numbers), (b"table", 0)]
        yield sheet, script


def offers_and_bookings():
    for part in (single_bookings(), first_question_of_bookings(), whole_bookings()):
        yield from part
    yield from offers_on_faults(16, SIX, sheets.narrow_sheet)
    yield from random_offers(17, 60, sheets.small_sheet, sheets.narrow_sheet, sheets.wide_sheet)
    yield from steps_one_by_one(18, 30, sheets.small_sheet, sheets.windowed_sheet)
    # As in upside_down: from such a text no sheet is read, and the answers are 3.
    reversed_window = with_windows(SIX, [(3, 2)] + SINGLE_CLOCKS[1:])
    yield reversed_window, [(b"offer", 2, 0, 0), (b"book", 2, 0, 0, 0), (b"offer", 0, 9, 9), (b"book", 0, 9, 9, 9)]


# ---- units that stay busy

# As SIX, with more starts and intervals. Operations 0, 1 and 3 hold an instance for two slots, 5 holds its own for
# three; 2 and 4 are of an unlimited type and hold nothing.
BUSY = with_busy(plain_sheet(7, 6, [(2, 1), (0, 1), (1, 1)], [0, 0, 1, 0, 1, 2], []), [2, 32, 3])


def busy_entries():
    """One placed entry of each kind at intervals below its K, equal to it and above; and another operation placed."""
    script = []
    for i, start in itertools.product((0, 2, 5), (0, 1, 5, 6, 7)):
        script += handed_in([(i, 1, start, 0)], [1, 2, 3, 4], 1, 5)
    yield BUSY, script


def busy_pairs():
    """Two rivals at starts all over, on one instance and on two; then a third is placed beside them."""
    for interval in (2, 3, 4, 5):
        script = []
        for t, v, w in itertools.product((0, 1, 6), range(7), (0, 1)):
            script += handed_in([(0, 1, t, 0), (3, 1, v, w)], [interval], 1, (v + 1) % 7)
        yield BUSY, script


def busy_bookings():
    """At each interval, below K too, every start offered and every instance booked beside a rival, and beside two."""
    tables = [{1: (True, 1, 0)}, {1: (True, 1, 0), 3: (True, 4, 1)}, {5: (True, 0, 0)}]
    for interval, entries in itertools.product((1, 2, 3, 4, 6), tables):
        table = [entries.get(i, NOTHING) for i in range(ref.MOST_OPERATIONS)]
        script = given(table)
        for op, start in itertools.product((0, 5), range(7)):
            script += [(b"offer", interval, op, start)]
            script += [line for unit in (0, 1, 2) for line in tried(table, (b"book", interval, op, start, unit))]
        yield BUSY, script + [(b"offer", interval, 2, 0), (b"book", interval, 2, 6, 0), (b"table", 0)]


def busy_to_the_full():
    """24 operations on 8 units, as many as there is room for and more, by placements in any order of slots."""
    wide = plain_sheet(128, 64, [(8, 0)], [0] * 24, [])
    for k, interval in ((21, 64), (22, 64), (32, 64), (32, 32), (32, 31), (21, 63), (5, 17), (1, 3)):
        starts = [op * k for op in range(24)] if k < 6 else [op % 3 * k + 64 * (op % 2) for op in range(24)]
        script = [(b"place", interval, op, min(start, 127)) for op, start in enumerate(starts)]
        yield with_busy(wide, [k]), [(b"new", interval)] + script + [(b"table", 0), (b"consistent", interval)]


def busy_in_numbers():
    """(name, answer, sheet): K out of range beside other faults, worked by hand. An entry past the types is no part of
    the sheet; one is there in C, where it is 0."""
    yield "K 0", 3, with_busy(SIX, [0, 1, 1])
    yield "K 33", 3, with_busy(SIX, [1, 1, 33])
    yield "K 33 of an unlimited type", 3, with_busy(SIX, [1, 33, 1])
    yield "K 0 of an unlimited type", 3, with_busy(SIX, [1, 0, 1])
    yield "the greatest K", 3, with_busy(SIX, [1, 1, MOST])
    yield "K 32", 0, with_busy(SIX, [32, 32, 32])
    reversed_window = with_busy(with_operations({4: (1, 1, 0)}), [1, 33, 1])
    yield "K 33 before 16", 3, reversed_window
    yield "K 1 and 16", 16, with_busy(reversed_window, [1, 1, 1])


def busy_scripts():
    for part in (busy_entries(), busy_pairs(), busy_bookings(), busy_to_the_full()):
        yield from part
    yield from offers_on_faults(24, BUSY, sheets.busy_sheet)
    yield from random_scripts(21, 4, sheets.busy_sheet, sheets.crowded_sheet)
    yield from random_offers(22, 30, sheets.busy_sheet, sheets.crowded_sheet, sheets.seated_sheet)
    yield from steps_one_by_one(23, 30, sheets.busy_sheet, sheets.crowded_sheet)


# ---- all of them


def scripts():
    """(sheet, script) of each pair of pieces."""
    yield None, steps(1)
    for part in (single_entries(), entry_pairs(), first_question(), whole_tables()):
        yield from part
    yield from random_scripts(5, 24, sheets.small_sheet)
    yield from late_results()
    yield from outside_windows()
    yield from upside_down()
    yield from random_scripts(12, 24, sheets.narrow_sheet, sheets.windowed_sheet)
    yield from offers_and_bookings()
    yield from busy_scripts()


def as_read(sheet):
    """The sheet that comes from the text of this one; None where the text is refused."""
    return None if sheet is None else ref.read_sheet(ref.sheet_text(sheet))[1]


def stored():
    """The pieces of standard input, and the answer to each pair."""
    pairs = list(scripts())
    pieces = [p for sheet, script in pairs for p in (b"" if sheet is None else ref.sheet_text(sheet), text_of(script))]
    return pieces, [b"".join(answers_of(as_read(sheet), script)) for sheet, script in pairs]


# ---- sheets handed in as numbers

MOST = 2**64 - 1


def with_operations(changes):
    """SIX with other numbers (r, lo, hi) of some operations."""
    sheet = with_windows(SIX, [ref.window(SIX, i) for i in range(len(SIX.ops))])
    for i, numbers in changes.items():
        sheet.ops[i] = numbers
    return sheet


def windows_in_numbers():
    """(name, answer, sheet): the first line at fault decides, and 3 within a line goes before 16. The answers are
    worked by hand; the horizon is 4 and there are 3 types."""
    yield "lo past hi", 16, with_operations({0: (0, 1, 0)})
    yield "lo past hi in the last operation", 16, with_operations({5: (2, 3, 2)})
    yield "lo at the horizon", 3, with_operations({0: (0, 4, 3)})
    yield "hi at the horizon", 3, with_operations({0: (0, 0, 4)})
    yield "both at the horizon", 3, with_operations({5: (0, 4, 4)})
    yield "the greatest lo", 3, with_operations({3: (0, MOST, 0)})
    yield "the greatest hi", 3, with_operations({3: (0, 0, MOST)})
    yield "no such type, and lo past hi", 3, with_operations({1: (3, 2, 1)})
    yield "16 before a later 3", 16, with_operations({1: (0, 2, 1), 2: (3, 0, 3)})
    yield "16 after an earlier 3", 3, with_operations({1: (MOST, 0, 3), 2: (0, 2, 1)})
    latest = with_operations({4: (1, 1, 0)})
    latest.edges = [(0, 6, 0, 0)]
    yield "16 before an edge out of range", 16, latest
    wrong_cap = with_operations({4: (1, 1, 0)})
    wrong_cap.cap = 65
    yield "16 after a cap out of range", 3, wrong_cap
    wrong_type = with_operations({4: (1, 1, 0)})
    wrong_type.types[2] = (9, 1, 1)
    yield "16 after a type out of range", 3, wrong_type
    short = with_operations({})
    short.horizon = 3
    yield "windows of a longer horizon", 3, short
    yield "a single clock", 0, with_operations({0: (0, 3, 3)})


def scripts_in_numbers():
    """(sheet, script) of each of these sheets, with an entry past its operations and without."""
    for _, _, sheet in itertools.chain(windows_in_numbers(), busy_in_numbers()):
        yield sheet, [(b"entry", 6, 1, 0, 0)] + steps(2)
        yield sheet, steps(2)


def any_scripts(rng, count):
    """Placements at one interval on sheets of any numbers, most of them refused."""
    for _ in range(count):
        sheet = sheets.any_numbers(rng)
        interval = rng.choice([1, 2, 3, 5, sheet.cap, sheet.cap + 1])
        targets = [(rng.randint(0, len(sheet.ops)), rng.randint(0, sheet.horizon)) for _ in range(24)]
        yield sheet, [(b"place", interval, op, start) for op, start in targets]
