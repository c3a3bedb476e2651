"""The question "is there a plan at this interval?" for general solvers: CNF, SMT-LIB, LP and MiniZinc.

Of a type whose K is 1 each encoding asks for the starts alone: instances exist exactly when no slot holds more
operations of the type than it has instances. With a greater K that is not enough, and the instances are asked for too:
that of an operation is at most its place, from 0, among those of its type, since instances can be renamed. A type with
no more operations than instances asks for nothing, but that K is at most the interval.
"""

import itertools

from reference import kinds, latency, total, window


def members_of(sheet):
    """(instances, K, operations) of each limited type that has operations."""
    for r, (a, _, k) in enumerate(sheet.types):
        members = [i for i, q in enumerate(kinds(sheet)) if q == r]
        if a != 0 and members:
            yield a, k, members


def limited_groups(sheet):
    """The same of those that have more operations than instances."""
    return [group for group in members_of(sheet) if len(group[2]) > group[0]]


def meets_itself(sheet, interval):
    """Some operation would hold a slot twice, so that there is no plan."""
    return any(k > interval for _, k, _ in members_of(sheet))


def allowed_units(a, members):
    """Each operation of a group with the instances that are asked about."""
    return [(i, range(min(a, place + 1))) for place, i in enumerate(members)]


def differences(sheet, interval):
    """(i, j, w) for each edge: start of i plus w is at most start of j."""
    return [(e[0], e[1], total(sheet, interval, e)) for e in sheet.edges]


def first_start(sheet, i):
    """The first start in the window of i."""
    return window(sheet, i)[0]


def last_start(sheet, i):
    """The last start in the window of i and in the horizon whose result is there at its end; below the first start
    where there is none."""
    return min(window(sheet, i)[1], sheet.horizon - max(1, latency(sheet, i)))


# ---- CNF: order encoding of starts, a literal for each start and slot, sequential counters


class Clauses:
    def __init__(self):
        self.variables, self.clauses = 0, []

    def new(self):
        self.variables += 1
        return self.variables

    def add(self, *literals):
        self.clauses.append(literals)

    def at_most(self, limit, literals):
        """Sequential counter: counted[k] is true when at least k + 1 of the literals so far are."""
        if len(literals) <= limit:
            return
        counted = []
        for x in literals:
            now = [self.new() for _ in range(limit)]
            self.add(-x, now[0])
            for k, before in enumerate(counted):
                self.add(-before, now[k])
                if k + 1 < limit:
                    self.add(-before, -x, now[k + 1])
            if counted:
                self.add(-counted[-1], -x)
            counted = now

    def text(self):
        rows = ["p cnf %d %d" % (self.variables, len(self.clauses))]
        rows += [" ".join(map(str, c)) + " 0" for c in self.clauses]
        return "\n".join(rows) + "\n"


def cnf(sheet, interval):
    out, last = Clauses(), sheet.horizon - 1
    by = [[out.new() for _ in range(last)] for _ in sheet.ops]

    def at_most_at(i, t):
        """The literal of "start of i is at most t": True, False or a variable."""
        return True if t >= last else False if t < 0 else by[i][t]

    for i, row in enumerate(by):
        for a, b in zip(row, row[1:]):
            out.add(-a, b)
        implied(out, at_most_at(i, first_start(sheet, i) - 1), False)
        implied(out, True, at_most_at(i, last_start(sheet, i)))
    for i, j, w in differences(sheet, interval):
        for t in range(sheet.horizon):
            after, before = at_most_at(j, t), at_most_at(i, t - w)
            implied(out, after, before)
    if meets_itself(sheet, interval):
        out.add()
    for a, k, members in limited_groups(sheet):
        slots = {i: slot_literals(out, at_most_at, i, sheet.horizon, interval) for i in members}
        if k == 1:
            for s in range(interval):
                out.at_most(a, [slots[i][s] for i in members if s in slots[i]])
        else:
            busy_clauses(out, interval, a, k, members, slots)
    return out.text()


def busy_clauses(out, interval, a, k, members, slots):
    """A literal for each operation and instance, of which one at least is true, and one for each slot that the
    operation holds on that instance: of those at most one is true for each instance and slot."""
    cells = {(u, s): [] for u in range(a) for s in range(interval)}
    for i, units in allowed_units(a, members):
        on = [out.new() for _ in units]
        out.add(*on)
        held = {(u, s): out.new() for u in units for s in range(interval)}
        for (u, s), literal in held.items():
            cells[u, s].append(literal)
            for start in {(s - after) % interval for after in range(k)} & slots[i].keys():
                out.add(-on[u], -slots[i][start], literal)
    for literals in cells.values():
        out.at_most(1, literals)


def implied(out, if_true, then):
    """The clause if_true -> then, where either may be a constant."""
    if if_true is False or then is True:
        return
    literals = ([] if if_true is True else [-if_true]) + ([] if then is False else [then])
    out.add(*literals)


def slot_literals(out, at_most_at, i, horizon, interval):
    """A literal for each slot, true when the start of i lies in it."""
    slots = {s: out.new() for s in range(min(interval, horizon))}
    for t in range(horizon):
        up_to, below = at_most_at(i, t), at_most_at(i, t - 1)
        literals = [] if up_to is True else [-up_to]
        literals += [] if below is False else [below]
        out.add(*literals, slots[t % interval])
    return slots


# ---- SMT-LIB: linear integer arithmetic, start = interval * stage + slot


def smtlib(sheet, interval, ask=True):
    rows = ["(set-logic QF_LIA)"]
    for i in range(len(sheet.ops)):
        last = smt_number(last_start(sheet, i))
        rows.append("(declare-const t%d Int)" % i)
        rows.append("(assert (and (<= %d t%d) (<= t%d %s)))" % (first_start(sheet, i), i, i, last))
    for i, j, w in differences(sheet, interval):
        rows.append("(assert (<= (+ t%d %s) t%d))" % (i, smt_number(w), j))
    if meets_itself(sheet, interval):
        rows.append("(assert false)")
    for a, k, members in limited_groups(sheet):
        for i in members:
            rows += ["(declare-const s%d Int)" % i, "(declare-const k%d Int)" % i]
            rows.append("(assert (and (<= 0 s%d) (< s%d %d)))" % (i, i, interval))
            rows.append("(assert (and (<= 0 k%d) (= t%d (+ (* %d k%d) s%d))))" % (i, i, interval, i, i))
        rows += smt_busy(interval, a, k, members) if k > 1 else smt_counts(interval, a, members)
    return "\n".join(rows + (["(check-sat)"] if ask else [])) + "\n"


def smt_counts(interval, a, members):
    if a == 1:
        yield "(assert (distinct %s))" % " ".join("s%d" % i for i in members)
        return
    for s in range(interval):
        terms = " ".join("(ite (= s%d %d) 1 0)" % (i, s) for i in members)
        yield "(assert (<= (+ %s) %d))" % (terms, a)


def smt_busy(interval, a, k, members):
    """Two on one instance are K slots apart at least, either way round."""
    for i, units in allowed_units(a, members):
        yield "(declare-const u%d Int)" % i
        yield "(assert (and (<= 0 u%d) (< u%d %d)))" % (i, i, len(units))
    for i, j in itertools.combinations(members, 2):
        apart = ["(<= %d (- s%d s%d) %d)" % (k, x, y, interval - k) for x, y in ((i, j), (j, i))]
        yield "(assert (or (not (= u%d u%d)) %s))" % (i, j, " ".join(apart))


def smt_number(w):
    return str(w) if w >= 0 else "(- %d)" % -w


# ---- LP: a binary for each operation and slot, and for each instance where K is above 1; an integer stage


def lp_names(a, k, members, interval):
    """For each operation of a group its binaries: {(instance, slot): name}, the instance 0 where K is 1."""
    for i, units in allowed_units(a, members):
        yield i, {(u, s): "x%d_%d_%d" % (i, u, s) for u in (units if k > 1 else [0]) for s in range(interval)}


def lp_rows(a, k, names, interval):
    """At most A operations start in a slot; with K above 1 at most one holds it on each instance."""
    for u, s in itertools.product(range(a if k > 1 else 1), range(interval)):
        starts = {(s - after) % interval for after in range(k)}
        terms = [of_one[u, start] for of_one in names.values() for start in sorted(starts) if (u, start) in of_one]
        yield " + ".join(terms) + " <= %d" % (1 if k > 1 else a)


def lp(sheet, interval):
    rows, binaries, bounds, limited = [], [], [], []
    for i, j, w in differences(sheet, interval):
        if i == j:
            rows.append("0 t%d <= %d" % (i, -w))
        else:
            rows.append("t%d - t%d <= %d" % (i, j, -w))
    if meets_itself(sheet, interval):
        rows.append("0 t0 <= -1")
    for a, k, members in limited_groups(sheet):
        names = dict(lp_names(a, k, members, interval))
        rows += lp_rows(a, k, names, interval)
        limited += members
        for i, of_one in names.items():
            binaries += of_one.values()
            rows.append(" + ".join(of_one.values()) + " = 1")
            weighted = " ".join("- %d %s" % (s, x) for (_, s), x in of_one.items() if s)
            rows.append("t%d - %d k%d %s = 0" % (i, interval, i, weighted))
            bounds.append("0 <= k%d <= %d" % (i, sheet.horizon // interval))
    for i in range(len(sheet.ops)):
        bounds.append("%d <= t%d <= %d" % (first_start(sheet, i), i, last_start(sheet, i)))
    general = ["t%d" % i for i in range(len(sheet.ops))] + ["k%d" % i for i in limited]
    every = " + ".join("0 t%d" % i for i in range(len(sheet.ops)))  # cbc cannot read names that have bounds alone
    parts = ["Minimize", " obj: " + every, "Subject To"] + [" c%d: %s" % c for c in enumerate(rows)]
    parts += ["Bounds"] + [" " + b for b in bounds] + ["Generals"] + [" " + g for g in general]
    parts += ["Binaries"] + [" " + b for b in binaries] + ["End"]
    return "\n".join(parts) + "\n"


# ---- MiniZinc: the data for plan.mzn


def dzn(sheet, interval):
    edges = differences(sheet, interval)
    groups = limited_groups(sheet)
    rows = [
        "n = %d; horizon = %d; interval = %d;" % (len(sheet.ops), sheet.horizon, interval),
        "first = %s;" % [first_start(sheet, i) for i in range(len(sheet.ops))],
        "last = %s;" % [last_start(sheet, i) for i in range(len(sheet.ops))],
        "e = %d;" % len(edges),
        "source = %s;" % [i + 1 for i, _, _ in edges],
        "target = %s;" % [j + 1 for _, j, _ in edges],
        "lag = %s;" % [w for _, _, w in edges],
        "g = %d;" % len(groups),
        "instances = %s;" % [a for a, _, _ in groups],
        "busy = %s;" % [k for _, k, _ in groups],
        "members = [%s];" % ", ".join("{%s}" % ", ".join(str(i + 1) for i in m) for _, _, m in groups),
        "too_busy = %s;" % str(meets_itself(sheet, interval)).lower(),
    ]
    return "\n".join(rows) + "\n"
