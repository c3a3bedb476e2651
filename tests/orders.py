"""Pairs of schedules for test_order, and the verdicts of the reference.

A schedule is (starts, instances), 24 of each; a case is (count, first, second). crates/test_order/src/main.rt says how
a case is written.
"""

import itertools

import reference as ref
import sheets

GREATEST = 2**64 - 1
SPOTS = [(kind, i) for kind in (0, 1) for i in (0, 1, 12, 22, 23)]


def character(n):
    return "~" if n == GREATEST else chr(ord("0") + n)


def line_of(count, first, second):
    lists = [character(count)] + ["".join(map(character, row)) for row in (*first, *second)]
    return " ".join(lists).encode() + b"\n"


def schedule(numbers):
    """Zeros, but for these: {(0 for a start or 1 for an instance, operation): number}."""
    return tuple([numbers.get((kind, i), 0) for i in range(24)] for kind in (0, 1))


def both_ways(count, first, second):
    yield count, first, second
    yield count, second, first


def equal_schedules():
    for count in (0, 1, 23, 24, 25, GREATEST):
        for numbers in ({}, {(0, 23): GREATEST, (1, 0): 9}):
            yield count, schedule(numbers), schedule(numbers)


def one_difference():
    """Just within the count and just past it; with every operation counted, and with more than there are."""
    for kind, i in SPOTS:
        for count in sorted({i, i + 1, 24, 25, 74, GREATEST}):
            yield from both_ways(count, schedule({}), schedule({(kind, i): 1}))


def two_differences():
    """Each says another verdict; a start decides before every instance, and a lower operation before a higher one."""
    for a, b in itertools.combinations(SPOTS, 2):
        for count in (13, 24, GREATEST):
            yield from both_ways(count, schedule({a: 1}), schedule({b: 1}))


def numbers_at_the_ends():
    for spot in ((0, 3), (1, 3)):
        for x, y in itertools.combinations((0, 1, 76, 77, GREATEST), 2):
            yield from both_ways(4, schedule({spot: x}), schedule({spot: y}))


def random_pairs(rng, rounds):
    for _ in range(rounds):
        first = {(kind, i): rng.randint(0, 9) for kind in (0, 1) for i in range(24)}
        changes = [(rng.randint(0, 1), rng.randrange(24)) for _ in range(rng.randint(0, 3))]
        second = {**first, **{spot: rng.randint(0, 9) for spot in changes}}
        yield rng.randint(0, 26), schedule(first), schedule(second)


def cases():
    for part in (equal_schedules(), one_difference(), two_differences(), numbers_at_the_ends()):
        yield from part
    yield from random_pairs(sheets.seeded(6), 150)


def stored():
    """Standard input, and what is printed for it."""
    made = list(cases())
    return b"".join(line_of(*c) for c in made), b"".join(ref.order(*c).encode() + b"\n" for c in made)
