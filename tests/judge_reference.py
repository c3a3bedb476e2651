#!/usr/bin/env python3
"""Another supplier's answer to a sheet examined, as slip 7 of document 02 words it.

Independent of the Rattle crates: nothing here is taken from their code. The text is read first, line after line with a
regular expression, into the places of a plan or the nodes of a tree; then the interval is asked for; then the places or
the nodes are gone through from the top. What a plan has to keep comes from reference.py, and nothing else does.

As a program:  judge_reference.py < SHEET 3< ANSWER   prints the answer, and on standard error the line at fault.
"""

import collections
import re
import sys

import reference as ref

MOST_LINES = 1024  # the first two counted
MOST_CUTS = 64  # above a leaf
MOST_EDGES = 24  # of a chain or a walk

# How many numbers the line of each key has, at least and at most.
COUNTS = {
    "answer": (1, 1),
    "interval": (1, 1),
    "at": (2, 2),
    "split": (2, 2),
    "seat": (2, 2),
    "loop": (1, MOST_EDGES),
    "late": (1, 1 + MOST_EDGES),
    "clash": (2, 2),
}
CUTS = ["split", "seat"]
NODES = [*CUTS, "loop", "late", "clash"]
DENIED = [5, 6]  # which of them isn't judged

LINE = re.compile(rb"([a-z]+)=(%s(?:,%s)*)\n" % (ref.PLAIN, ref.PLAIN))


# ---- reading (18)


class Stopped(Exception):
    """Reading has stopped at a line, counted from 1."""

    def __init__(self, line):
        super().__init__(line)
        self.line = line


class Lines:
    """The lines of an answer from the top, the last one too if it has no line feed; at is the number of the last one
    that was taken."""

    def __init__(self, text):
        self.lines, self.at = re.findall(rb"[^\n]*\n|[^\n]+", text), 0

    def take(self, *keys):
        """The key and the numbers of the next line, which is due under one of these keys."""
        self.at += 1
        found = LINE.fullmatch(self.lines[self.at - 1]) if self.at <= min(len(self.lines), MOST_LINES) else None
        key = found[1].decode() if found else None
        self.ask(key in keys)
        numbers = [int(number) for number in found[2].split(b",")]
        low, high = COUNTS[key]
        self.ask(low <= len(numbers) <= high)
        return key, numbers

    def ask(self, good):
        """Reading stops at the line that was taken if it is not good."""
        if not good:
            raise Stopped(self.at)

    def end(self):
        """No line is left."""
        if self.at < len(self.lines):
            raise Stopped(self.at + 1)


# A line of a tree; parts are the two subtrees of a cut, up to its number and above it, and none of a leaf.
Node = collections.namedtuple("Node", "line key numbers parts")


def named(key, numbers):
    """The operations and the edges that a node names."""
    if key == "loop":
        return [], numbers
    if key == "late":
        return numbers[:1], numbers[1:]
    return numbers if key == "clash" else numbers[:1], []


def has_all(sheet, operations, edges):
    """The sheet has these operations and these edges."""
    return all(i < len(sheet.ops) for i in operations) and all(k < len(sheet.edges) for k in edges)


def read_tree(sheet, lines, cuts=0):
    """A node and all below it, with so many cuts above it."""
    key, numbers = lines.take(*NODES)
    lines.ask(has_all(sheet, *named(key, numbers)))
    lines.ask(key not in CUTS or cuts < MOST_CUTS)
    line = lines.at
    return Node(line, key, numbers, [read_tree(sheet, lines, cuts + 1) for _ in range(2)] if key in CUTS else [])


def read_places(sheet, lines):
    """(start, instance) of each operation."""
    return [tuple(lines.take("at")[1]) for _ in sheet.ops]


def read_answer(sheet, text):
    """(interval, places, None) of a plan, (interval, None, tree) of a denial."""
    lines = Lines(text)
    answer = lines.take("answer")[1][0]
    lines.ask(answer == 0 or answer in DENIED)
    interval = lines.take("interval")[1][0]
    places, tree = (read_places(sheet, lines), None) if answer == 0 else (None, read_tree(sheet, lines))
    lines.end()
    return interval, places, tree


# ---- a plan (19)

PLACES_FROM = 3  # the line of operation 0


def fits(sheet, interval, places, i):
    """Operation i breaks no rule, by itself or with those before it."""
    start, unit = places[i]
    starts = [t for t, _ in places]
    edges = [edge for edge in sheet.edges if max(edge[:2]) == i]
    return (
        start in ref.start_range(sheet, i)
        and unit in ref.instance_range(sheet, i)
        and not ref.meets_itself(sheet, interval, i, start)
        and all(ref.dependence_kept(sheet, interval, edge, starts) for edge in edges)
        and not any(ref.collide(sheet, interval, i, places[i], j, places[j]) for j in range(i))
    )


def broken_places(sheet, interval, places):
    """The lines of the operations that break a rule, from the top."""
    return (PLACES_FROM + i for i in range(len(places)) if not fits(sheet, interval, places, i))


# ---- a tree (19): a part has for each operation what is left to it

Left = collections.namedtuple("Left", "lowest highest first last")  # starts and instances, the ends counted


def whole(sheet):
    """All starts and instances; the highest start may be below 0."""
    part = []
    for i in range(len(sheet.ops)):
        lo, hi = ref.window(sheet, i)
        highest = min(hi, sheet.horizon - 1, sheet.horizon - ref.latency(sheet, i))
        part.append(Left(lo, highest, 0, max(0, ref.instances_of(sheet, i) - 1)))
    return part


def narrowed(part, i, **ends):
    """The part with other ends for operation i."""
    return part[:i] + [part[i]._replace(**ends)] + part[i + 1 :]


def halves(part, key, i, number):
    """What a cut makes of a part: up to the number, and above it."""
    left = part[i]
    if key == "split":
        up_to, above = {"highest": min(left.highest, number)}, {"lowest": max(left.lowest, number + 1)}
    else:
        up_to, above = {"last": min(left.last, number)}, {"first": max(left.first, number + 1)}
    return narrowed(part, i, **up_to), narrowed(part, i, **above)


def limited(sheet, i):
    return ref.instances_of(sheet, i) != 0


def follow(sheet, interval, i, chain):
    """(end, sum) of a chain of edges from operation i; None where the edges do not chain."""
    total = 0
    for k in chain:
        edge = sheet.edges[k]
        if edge[0] != i:
            return None
        i, total = edge[1], total + ref.total(sheet, interval, edge)
    return i, total


def loop_is_so(sheet, interval, chain):
    """A closed walk whose totals sum to more than 0."""
    begin = sheet.edges[chain[0]][0]
    found = follow(sheet, interval, begin, chain)
    return found is not None and found[0] == begin and found[1] > 0


def late_is_so(sheet, interval, part, i, *chain):
    """The lowest start left to i puts the end of the chain past the highest left to that."""
    found = follow(sheet, interval, i, chain)
    return found is not None and part[i].lowest + found[1] > part[found[0]].highest


def pinned(left):
    """One start and one instance."""
    return left.lowest == left.highest and left.first == left.last


def clash_is_so(sheet, interval, part, i, j):
    """An operation that is busy for longer than the interval; or two that would collide where they are pinned."""
    if i == j:
        return limited(sheet, i) and ref.busy(sheet, i) > interval
    if not (pinned(part[i]) and pinned(part[j])):
        return False
    return ref.collide(sheet, interval, i, (part[i].lowest, part[i].first), j, (part[j].lowest, part[j].first))


def is_so(sheet, interval, part, node):
    """A leaf is so for this part; a cut may be made."""
    if node.key == "loop":
        return loop_is_so(sheet, interval, node.numbers)
    if node.key == "late":
        return late_is_so(sheet, interval, part, *node.numbers)
    if node.key == "clash":
        return clash_is_so(sheet, interval, part, *node.numbers)
    return node.key == "split" or limited(sheet, node.numbers[0])


def wrong_nodes(sheet, interval, part, node):
    """The lines of the nodes that are not so, from the top."""
    if not is_so(sheet, interval, part, node):
        yield node.line
    if node.parts:
        for half, below in zip(halves(part, node.key, *node.numbers), node.parts):
            yield from wrong_nodes(sheet, interval, half, below)


# ---- the answer: 18, then 4, then 19

INTERVAL_AT = 2  # its line


def verdict(sheet, text):
    """(0, 0), or 18, 4 or 19 and the line at fault: with 18 the one at which reading stops."""
    try:
        interval, places, tree = read_answer(sheet, text)
    except Stopped as stopped:
        return 18, stopped.line
    if not 1 <= interval <= sheet.cap:
        return 4, INTERVAL_AT
    if tree is None:
        faults = broken_places(sheet, interval, places)
    else:
        faults = wrong_nodes(sheet, interval, whole(sheet), tree)
    line = next(faults, 0)
    return (19, line) if line else (0, 0)


def judge(sheet, text):
    """The answer for an accepted sheet."""
    return verdict(sheet, text)[0]


def line_at_fault(sheet, text):
    """The line of the answer's text at which it is refused, counted from 1; 0 where it passes."""
    return verdict(sheet, text)[1]


def verdict_of_bytes(data, text):
    """The same for the bytes of a sheet, whose refusals 1, 2, 3 and 16 come first and have no line of the answer."""
    answer, sheet = ref.read_sheet(data)
    return (answer, 0) if answer else verdict(sheet, text)


def judge_bytes(data, text):
    return verdict_of_bytes(data, text)[0]


def main():
    answer, line = verdict_of_bytes(sys.stdin.buffer.read(), open(3, "rb").read())
    print("answer=%d" % answer)
    if line:
        sys.exit("line %d" % line)


if __name__ == "__main__":
    main()
