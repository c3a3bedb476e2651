"""Random loop sheets, sheets of any numbers and damaged sheets for the tests, from a seed."""

import random
import re

from reference import RANGES, earliest_starts, kind, latency, plain_sheet, sheet_text
from reference import with_busy, with_horizon, with_windows

HUGE = 9999  # the greatest number that a line can have

# Bytes that a damaged sheet may get: every class of the format, and others.
ODD_BYTES = b"0123456789-,=\n\r +.\x00\x7f\x80\xff" + b"horizncaptyesdg"

# Spellings and values that a number of a damaged sheet may get.
ODD_NUMBERS = [b"-0", b"00", b"+1", b"-1", b"", b"9999", b"10000", b"-9999", b"-10000"]
ODD_NUMBERS += [b"-65", b"65", b"8", b"9", b"33", b"129", b"0"]


def small_sheet(rng):
    """A sheet small enough for enumeration: up to 5 operations, horizon up to 6, windows that are all of it."""
    n = rng.randint(1, 5)
    types = [(rng.choice([0, 1, 1, 1, 2, 3]), rng.choice([0, 1, 1, 2, 3])) for _ in range(rng.randint(1, 3))]
    kinds = [rng.randrange(len(types)) for _ in range(n)]
    edges = [small_edge(rng, n) for _ in range(rng.choice([0, 1, 2, 3, 4, 5, 6, 8]))]
    return plain_sheet(rng.randint(1, 6), rng.randint(1, 6), types, kinds, edges)


def late_sheet(rng):
    """A small sheet whose frame ends about when its results arrive: its dependences can be met, and the horizon is from
    just past the last of the earliest starts to just past the last result."""
    while True:
        sheet = small_sheet(rng)
        sheet.types = [(a, rng.choice([0, d, d, rng.randint(1, 6)]), *more) for a, d, *more in sheet.types]
        answer, starts, _ = earliest_starts(sheet, sheet.cap)
        if answer == 0 and max(starts) < 6:
            results = [t + latency(sheet, i) for i, t in enumerate(starts)]
            return with_horizon(sheet, rng.randint(max(starts) + 1, max(results) + 1))


def narrow_sheet(rng):
    """A small sheet with any windows: all of the horizon, a single clock, or from one clock to another."""
    sheet = small_sheet(rng)
    return with_windows(sheet, [any_window(rng, sheet.horizon) for _ in sheet.ops])


def any_window(rng, horizon):
    first, last = sorted(rng.randrange(horizon) for _ in range(2))
    return rng.choice([(0, horizon - 1), (first, first), (first, last), (first, last)])


def windowed_sheet(rng):
    """A small sheet whose windows begin or end about at the earliest starts: lo about where the dependences alone put
    the operation, and hi about where it comes by them and every lo."""
    while True:
        sheet = small_sheet(rng)
        answer, starts, _ = earliest_starts(sheet, sheet.cap)
        if answer == 0 and max(starts) < 6:
            sheet = with_horizon(sheet, rng.randint(max(starts) + 1, 8))
            last = sheet.horizon - 1
            first = [rng.choice([0, beside(rng, t, last)]) for t in starts]
            starts = earliest_starts(with_windows(sheet, [(lo, last) for lo in first]), sheet.cap)[1]
            ends = [rng.choice([last, max(lo, beside(rng, t, last))]) for lo, t in zip(first, starts)]
            return with_windows(sheet, zip(first, ends))


def beside(rng, t, last):
    return min(max(t + rng.randint(-1, 1), 0), last)


def busy_sheet(rng):
    """A small sheet, with windows or without, whose units stay busy: K is 1, a divisor of some interval and none of
    others, the cap, so that the last interval is just long enough, or more, so that none is."""
    sheet = rng.choice([small_sheet, small_sheet, late_sheet, narrow_sheet, windowed_sheet])(rng)
    sheet.cap = min(9, sheet.cap + rng.randint(0, 4))
    some = [1, 1, 1, 2, 2, 2, 2, 3, 3, min(4, sheet.cap)]
    return with_busy(sheet, [rng.choice([*some * 2, sheet.cap, rng.choice([sheet.cap + 1, 32])]) for _ in sheet.types])


def crowded_sheet(rng):
    """A small sheet with as many operations of a busy type as its instances take at the cap, A times L / K rounded
    down, and sometimes one more of another type; a horizon about the cap, and windows now and then."""
    while True:
        a, k, interval = rng.choice([1, 2, 2, 3]), rng.choice([2, 2, 3, 3, 4]), rng.randint(2, 7)
        count = a * (interval // k)
        if 2 <= count <= 5:
            break
    types = [(a, rng.choice([0, 1, 2])), (rng.choice([0, 1]), 1)]
    kinds = [0] * count + [1] * rng.choice([0, 0, 1])
    rng.shuffle(kinds)
    edges = [small_edge(rng, len(kinds)) for _ in range(rng.choice([0, 0, 1, 2, 3]))]
    horizon = interval + rng.randint(-1, 2)
    sheet = with_busy(plain_sheet(horizon, interval, types, kinds, edges), [k, rng.choice([1, 2])])
    if rng.random() < 0.5:
        return sheet
    return with_windows(sheet, [any_window(rng, horizon) for _ in kinds])


def seated_sheet(rng):
    """Up to nine operations of one busy type whose starts the windows leave little choice: so much that, round the
    interval that is the cap or one less, there are instances for them, now and then but for one that is moved. So what
    is hard is to find the instances."""
    a, k = rng.choice([2, 2, 3]), rng.choice([2, 3, 3, 4])
    interval = rng.randint(k + 1, 3 * k + 2)
    starts = [t for _ in range(a) for t in packed(rng, k, interval)]
    rng.shuffle(starts)
    starts = [t + interval * rng.choice([0, 0, 1]) for t in starts[:9]]
    if rng.random() < 0.5:
        starts[-1] = rng.randrange(2 * interval)
    sheet = plain_sheet(max(starts) + 2, interval + rng.randint(0, 1), [(a, 1)], [0] * len(starts), [])
    wide = min(len(starts), rng.choice([0, 1, 3]))
    ends = [t + (i < wide) for i, t in enumerate(starts)]
    return with_windows(with_busy(sheet, [k]), list(zip(starts, ends)))


def packed(rng, k, interval):
    """Starts on one instance, each k slots at least after the one before, round the interval too."""
    first, at, starts = rng.randrange(interval), 0, []
    while at + k <= interval:
        starts.append((first + at) % interval)
        at += k + rng.choice([0, 0, 1, 2])
    return starts


def tiled_sheet(rng):
    """Rigid pairs or triples that fill every slot of every instance at the cap if they find room, in a horizon that has
    a start in each slot for each of them; now and then one of them may be longer. Of those that find no room most are
    denied by the sum of the slots modulo 2 or 3. Enumeration takes up to some seconds."""
    size, instances, interval = rng.choice([(2, 1, 10), (2, 2, 6), (2, 3, 4), (3, 2, 6)])
    count, late = instances * interval, rng.choice([0, 1])
    parts = [(0, *sorted(rng.sample(range(1, interval), size - 1))) for _ in range(count // size)]
    edges = list(rigid_edges(parts, late))
    if rng.random() < 0.3:
        edges.pop(rng.randrange(len(edges)))
    return plain_sheet(interval + max(p[-1] for p in parts), interval, [(instances, late)], [0] * count, edges)


def rigid_edges(parts, late):
    """Two edges between each operation of a part and the next, which fix the distance."""
    i = 0
    for part in parts:
        for apart in (b - a for a, b in zip(part, part[1:])):
            yield i, i + 1, apart - late, 0
            yield i + 1, i, -apart - late, 0
            i += 1
        i += 1


def held_sheet(rng):
    """Rivals that edges hold within two or three clocks, most often one more than the instances take there, and after
    them four operations of no limited type with windows of a few clocks, which a search would try first."""
    instances, clocks, interval = rng.randint(1, 2), rng.randint(2, 3), rng.randint(7, 9)
    count = min(6, instances * clocks + rng.choice([0, 1, 1, 1]))
    edges = [(i, j, 1 - clocks, 0) for i in range(count) for j in range(count) if i != j]
    sheet = plain_sheet(interval + 3, interval, [(instances, 0), (0, 1)], [0] * count + [1] * 4, edges)
    first = [rng.randrange(interval - 3) for _ in range(4)]
    windows = [(0, sheet.horizon - 1)] * count + [(t, t + rng.randint(1, 3)) for t in first]
    return with_windows(sheet, windows)


SMALL = [small_sheet, late_sheet, narrow_sheet, windowed_sheet, busy_sheet, crowded_sheet, seated_sheet]


def any_small_sheet(rng):
    return rng.choice(SMALL)(rng)


def small_edge(rng, n):
    """Self edges and parallel edges come by chance; most edges lead forward, most backedges have a distance."""
    i, j = rng.randrange(n), rng.randrange(n)
    if i < j:
        return (i, j, rng.choice([0, 0, 0, 1, -1, -2, 2]), rng.choice([0, 0, 0, 1]))
    if rng.random() < 0.25:
        return (i, j, rng.randint(-6, 0), 0)
    return (i, j, rng.choice([0, 0, 1, -1, -3]), rng.choice([1, 1, 2, 3, 8]))


def wide_sheet(rng):
    """Any in-range sheet, the ends of each range more often than by chance; for readers, not for plans."""
    n, e = spread(rng, 1, 24), spread(rng, 0, 96)
    types = [(spread(rng, 0, 8), spread(rng, 0, 32)) for _ in range(spread(rng, 1, 8))]
    kinds = [rng.randrange(len(types)) for _ in range(n)]
    edges = [(rng.randrange(n), rng.randrange(n), spread(rng, -64, 64), spread(rng, 0, 8)) for _ in range(e)]
    sheet = plain_sheet(spread(rng, 1, 128), spread(rng, 1, 64), types, kinds, edges)
    sheet = with_busy(sheet, [spread(rng, *RANGES["K"]) for _ in types])
    return with_windows(sheet, [sorted(spread(rng, 0, sheet.horizon - 1) for _ in range(2)) for _ in kinds])


def spread(rng, low, high):
    return rng.choice([low, high, rng.randint(low, high), rng.randint(low, min(high, low + 9))])


def any_numbers(rng):
    """A sheet as numbers, all of which a text can have too: in range, or with one fault or more, most often in a
    window or a K."""
    sheet = wide_sheet(rng)
    for _ in range(rng.choice([0, 0, 1, 1, 2, 3])):
        rng.choice([wrong_window, wrong_window, wrong_busy, wrong_field])(rng, sheet)
    if rng.random() < 0.2:
        sheet.horizon = rng.choice([0, 129, HUGE, spread(rng, *RANGES["H"])])
        sheet.cap = rng.choice([0, 65, HUGE, spread(rng, *RANGES["M"])])
    if rng.random() < 0.1:
        wrong_count(rng, sheet)
    return sheet


def wrong_window(rng, sheet):
    i = rng.randrange(len(sheet.ops))
    sheet.ops[i] = (kind(sheet, i), *rng.choice(wrong_windows(rng, sheet.horizon)))


def wrong_windows(rng, horizon):
    """Upside down (of one clock where the two are equal), at the horizon or past it, or more than one of these."""
    first, last = sorted(rng.randrange(horizon) for _ in range(2))
    inside = [(last, first), (last, first), (horizon - 1, 0)]
    return inside + [(horizon, first), (first, horizon), (horizon, horizon), (horizon + 1, horizon)]


def wrong_busy(rng, sheet):
    """The K of some type is at either side of an end of its range."""
    r = rng.randrange(len(sheet.types))
    sheet.types[r] = (*sheet.types[r][:2], rng.choice([0, 0, 1, 32, 33, 33, HUGE]))


def wrong_field(rng, sheet):
    """One number of a type, an operation or an edge is at either side of the end of some range."""
    rows = rng.choice([rows for rows in (sheet.types, sheet.ops, sheet.edges) if rows])
    k = rng.randrange(len(rows))
    field = rng.randrange(len(rows[k]))
    delay = rows is sheet.edges and field == 2
    value = rng.choice([0, 1, 8, 9, 32, 33, 64, 65, 128, HUGE]) * (rng.choice([1, -1]) if delay else 1)
    rows[k] = (*rows[k][:field], value, *rows[k][field + 1 :])


def wrong_count(rng, sheet):
    """No types, operations or edges, as many as there may be, or one more."""
    rows, count = rng.choice([(sheet.types, "R"), (sheet.ops, "N"), (sheet.edges, "E")])
    wanted = rng.choice([0, RANGES[count][1], RANGES[count][1] + 1])
    rows[:] = ((rows or [(0, 0, 0, 0)]) * wanted)[:wanted]


def damaged(rng, text):
    """The text with one to three edits: a byte changed, put in or taken out, a line moved, numbers replaced."""
    edits = [changed_byte, added_byte, lost_byte, moved_line, other_number, other_window, other_window, cut_short]
    edits += [other_type]
    data = bytearray(text)
    for _ in range(rng.choice([1, 1, 1, 2, 3])):
        data = rng.choice(edits)(rng, data)
    return bytes(data)


def changed_byte(rng, data):
    if data:
        data[rng.randrange(len(data))] = rng.choice(ODD_BYTES)
    return data


def added_byte(rng, data):
    at = rng.choice([rng.randint(0, len(data)), len(data)])
    return data[:at] + bytes([rng.choice(ODD_BYTES)]) + data[at:]


def lost_byte(rng, data):
    at = rng.randint(0, max(0, len(data) - 1))
    return data[:at] + data[at + 1 :]


def moved_line(rng, data):
    lines = bytes(data).split(b"\n")
    line = lines.pop(rng.randrange(len(lines)))
    if rng.random() < 0.6:
        lines.insert(rng.randint(0, len(lines)), line)
    if rng.random() < 0.3:
        lines.insert(rng.randint(0, len(lines)), line)
    return bytearray(b"\n".join(lines))


def other_number(rng, data):
    """One number gets another spelling or another value."""
    spots = [k for k in range(1, len(data)) if data[k - 1 : k] in (b"=", b",")]
    if not spots:
        return data
    at = rng.choice(spots)
    end = at
    while end < len(data) and data[end : end + 1] not in (b",", b"\n"):
        end += 1
    return data[:at] + rng.choice(ODD_NUMBERS) + data[end:]


def other_window(rng, data):
    """One operation gets a wrong window; sometimes the number of its type is out of range or malformed besides."""
    horizon = re.search(rb"horizon=([1-9][0-9]{0,3})\n", data)
    lines = list(re.finditer(rb"^op=([^,\n]*)[^\n]*", data, re.MULTILINE))
    if not horizon or not lines:
        return data
    line = rng.choice(lines)
    ends = wrong_windows(rng, int(horizon[1]))
    number = rng.choice([line[1], line[1], line[1], b"8", b"00"])
    return data[: line.start()] + b"op=%s,%d,%d" % (number, *rng.choice(ends)) + data[line.end() :]


# What may follow the first two numbers of a type: K at both sides of both ends, spelt in other ways, missing, or
# followed by more.
ODD_BUSY = [b",0", b",33", b",9999", b",10000", b"", b",", b",,1", b",01", b",00", b",-1", b",-0", b",+1", b", 1"]
ODD_BUSY += [b",1,", b",1,1", b",32,32,1,1", b",1", b",32"]


def other_type(rng, data):
    """One type gets another K, most often a wrong one; sometimes its instances are out of range or malformed too."""
    lines = list(re.finditer(rb"^type=([^,\n]*),([^,\n]*)[^\n]*", data, re.MULTILINE))
    if not lines:
        return data
    line = rng.choice(lines)
    instances = rng.choice([line[1], line[1], line[1], b"9", b"00"])
    return data[: line.start()] + b"type=%s,%s" % (instances, line[2]) + rng.choice(ODD_BUSY) + data[line.end() :]


def cut_short(rng, data):
    return data[: rng.randint(0, len(data))]


def text_of(make, rng):
    return sheet_text(make(rng))


def seeded(seed):
    return random.Random(seed)
