"""Turns the paths of an old proof, which walk from a goal's place by `before`, to today's names.

A path is read from the place that it starts at (that of the goal, of a typed argument, or of a `let`), as it stood in the
old chain of places. Today a step is reached with no `before`, and an arm is one record over the steps that it took:
`d.d.given.1` is `c.in-Digit.is`. tools/port_crate.py calls this with what `rt check --old-names` lists of a function.
"""

import re

OWN = {"type-inv": "type_inv", "well-formed": "well_formed", "loan-name": "loan_name", "branch": "branch-raw"}
PART = r"[^\s(){}.;,@\"«»\[\]\\]+"
PATH = re.compile(r"(?<![\w.'-])[a-zμκσ][\w']*(?:\.%s)+" % PART)
LET = re.compile(r"\blet\s+([\w']+)\s*=\s*([a-z][\w']*(?:\.%s)*)\s+in\b" % PART)


def plain(name):
    """A name without what port.py put in front of it."""
    name = re.sub(r"^(overflow|nonzero)-", "", name.replace("_", "-").lower())  # respell.py gave some a type's case
    return re.sub(r"^bounds-(?=\d+-)", "index-", re.sub(r"^slice-bounds-", "part-", name))


class Paths:
    def __init__(self, given):
        names = [it[0] for it in given["places"]]
        self.prev = {it[0]: it[1] for it in given["places"]}
        self.step = {it[0]: it[2] for it in given["places"]}
        self.new = dict(zip(names, given["places_by_name"]))
        self.arm = dict(zip(names, given["arms"]))
        self.spelled = {}
        for it in names:
            self.spelled.setdefault(plain(it), it)
        self.goals = {}
        for (old, new), at in zip(given["needs"], given["asked_at"]):
            self.goals[plain(old)] = at[0]
        self.args = given["args"]

    def up(self, place):
        while place is not None:
            yield place
            place = self.prev.get(place)

    def place_of_goal(self, name):
        # port.py called an index's goal a bound's.
        return self.goals.get(plain(name)) or self.goals.get(re.sub(r"^bounds-", "index-", plain(name)))

    def place(self, name):
        return self.spelled.get(plain(name))

    def holder(self, at, word):
        """The nearest place from `at` outwards whose step is `word`."""
        for lemma in (word, word[:-4] if word.endswith("_lem") else word):
            for place in self.up(at):
                if self.step[place][0] and plain(self.step[place][0]) == plain(lemma):
                    return place
        return None

    def partial(self, at):
        """Whether a later place takes more of the same arm; then this one is a step of its own."""
        arm = self.arm[at]
        return any(self.prev[it] == at and self.arm[it] and self.arm[it][0] == arm[0] for it in self.prev)

    def arm_over(self, goal, place):
        """The arm's record, as seen from the goal, that holds the step of `place`."""
        for at in self.up(goal):
            arm = self.arm.get(at)
            if arm and place in list(self.up(at))[:arm[1]] and not self.partial(at):
                return arm
        return None

    def from_step(self, goal, place, rest):
        """Today's path, from the goal, of the fields `rest` of the step that made `place`; None if an arm has no word for it."""
        rest = [OWN.get(it, it) for it in rest]
        arm = self.arm_over(goal, place)
        if arm:
            step = plain(self.step[place][0])
            best = None
            for name, of, fields in arm[2]:
                if plain(of) == step and [plain(it) for it in rest[:len(fields)]] == [plain(it) for it in fields]:
                    if best is None or len(fields) > len(best[1]):
                        best = (name, fields)
            if best is None:
                return None
            return [arm[0], best[0]] + rest[len(best[1]):]
        if self.arm[place] and self.step[place][0] == "match":
            return [self.new[place][:1].lower() + self.new[place][1:]] + rest
        return [self.step[place][1]] + rest

    def older(self, at):
        """The place, or the one before it where an older Rattle had none."""
        while at in self.step and re.match(r"way[-_]told\d*$", self.step[at][0] or ""):
            at = self.prev.get(at)
        return at

    def read(self, at, parts):
        """Where old parts lead from a place: ('place', P), ('step', P, rest) or ('start', parts)."""
        parts = list(parts)
        at = self.older(at)
        while parts and parts[0] == "before":
            parts.pop(0)
            at = self.older(self.prev.get(at) or at)
        if not parts:
            return ("place", at)
        place = self.holder(at, parts[0])
        if place:
            return ("step", place, parts[1:])
        return ("start", parts)


def own(parts):
    return [OWN.get(it, it) for it in parts]


def turned_body(paths, text, roots):
    """The text of one declaration with its paths turned. roots: name -> (place read from, goal's place, today's root)."""
    roots = dict(roots)
    known = {}  # a `let` of a step: name -> (place, rest, goal, root)
    out, at = [], 0
    token = re.compile("(?P<let>%s)|(?P<path>%s)" % (LET.pattern.replace("([", "(?:[").replace("([a-z]", "(?:[a-z]"), PATH.pattern))
    args = sorted(((a.replace(" ", ""), b.replace(" ", "")) for a, b in paths.args), key=lambda it: -len(it[0]))

    def with_args(path):
        for old, new in args:
            path = re.sub(re.escape(old) + r"(?![\w·'-])", new, path)
        return path

    def path_of(root, parts):
        if root in known:
            place, rest, goal, name = known[root]
            got = paths.from_step(goal, place, rest + list(parts))
            if got is not None:
                return ".".join([name] + got)
            return None
        if root in roots:
            place, goal, name = roots[root]
            kind = paths.read(place, parts)
            if kind[0] == "place":  # handed on as it stands, to a lemma of the file
                return ".".join([name] + ["before"] * list(paths.up(goal)).index(kind[1]))
            if kind[0] == "step":
                got = paths.from_step(goal, kind[1], kind[2])
                return None if got is None else ".".join([name] + got)
            return with_args(".".join([name] + own(kind[1])))
        return None

    for m in token.finditer(text):
        out.append(text[at:m.start()])
        at = m.end()
        if m["let"]:
            name, value = LET.match(m["let"]).groups()
            root, *parts = value.split(".")
            if root in roots:
                place, goal, new = roots[root]
                kind = paths.read(place, parts)
                if kind[0] == "place":
                    bare = re.search(r"(?<![\w.'-])%s(?![\w.'-])" % re.escape(name), text[m.end():])
                    if bare:
                        roots[name] = (kind[1], kind[1], name)
                        steps = list(paths.up(goal)).index(kind[1])
                        out.append("let %s = %s in" % (name, ".".join([new] + ["before"] * steps)))
                    else:
                        roots[name] = (kind[1], goal, name)
                        out.append("let %s = %s in" % (name, new))
                    known.pop(name, None)
                    continue
                if kind[0] == "step":
                    got = paths.from_step(goal, kind[1], kind[2])
                    known[name] = (kind[1], kind[2], goal, new)
                    roots.pop(name, None)
                    if got is not None:
                        if not paths.arm_over(goal, kind[1]):
                            known.pop(name, None)  # its fields keep their names
                        out.append("let %s = %s in" % (name, ".".join([new] + got)))
                    else:
                        out.append("")  # each use is written out
                    continue
                out.append("let %s = %s in" % (name, with_args(".".join([new] + own(kind[1])))))
            elif root in known:
                place, rest, goal, new = known[root]
                got = paths.from_step(goal, place, rest + parts)
                known[name] = (place, rest + parts, goal, new)
                out.append("" if got is None else "let %s = %s in" % (name, ".".join([new] + got)))
                continue
            else:
                out.append(".".join(own(m["let"].split("."))))
            roots.pop(name, None)
            known.pop(name, None)
            continue
        root, *parts = m["path"].split(".")
        got = path_of(root, parts)
        out.append(got if got is not None else ".".join([root] + own(parts)))
    out.append(text[at:])
    return "".join(out)


def turn(given, text, aliases, other):
    """The declarations of a Proof.antt whose goals are `ALIAS.Need-..`, with their paths turned."""
    paths = Paths(given)
    chunks = re.split(r"(?m)^(?=[^\s\-])", text)
    goal_of, result = {}, []
    alias = "|".join(re.escape(it) for it in aliases)
    for chunk in chunks:
        if re.match(r"(?:abbrev )?(?:pub )?use |mod |unfolding ", chunk):
            result.append(chunk)
            continue
        m = re.match(r"(?:pub )?(?:abbrev )?(?:pub )?([\w'+-]+)\s*:", chunk)
        if m:
            need = re.search(r"(?<![\w.-])(?:%s)\.Needs?-(%s)" % (alias, PART), chunk)
            if need and paths.place_of_goal(need[1]):
                goal_of[m[1]] = ("goal", paths.place_of_goal(need[1]))
            else:
                typed = re.findall(r"(?:\(([\w']+) : )?(?<![\w.-])(?:%s)\.(%s)" % (alias, PART), chunk)
                goal_of[m[1]] = ("typed", [(n, paths.place(p)) for n, p in typed if paths.place(p)])
                chunk = turned_body(paths, chunk, {n: (paths.place(p), paths.place(p), n) for n, p in typed if n and paths.place(p)})
            result.append(chunk)
            continue
        m = re.match(r"([\w'+-]+)((?:\s+(?:[\w']+|\{[^}]*\}|_))*)\s*=", chunk)
        if m and m[1] in goal_of:
            kind, what = goal_of[m[1]]
            given_args = re.findall(r"[\w']+", m[2])
            roots = {}
            if kind == "goal" and "c" in given_args:
                roots["c"] = (what, what, "c")
            elif kind == "typed":
                named = {n: p for n, p in what if n}
                for it in given_args:
                    if it in named:
                        roots[it] = (named[it], named[it], it)
                if not roots and len(what) == 1 and "c" in given_args:
                    roots["c"] = (what[0][1], what[0][1], "c")
            head = m[0]
            result.append(head + turned_body(paths, chunk[len(head):], roots) if roots else other(chunk))
            continue
        result.append(other(chunk))
    return "".join(result)


def without_settled(given, text, aliases):
    """Goals that today's check settles by itself go, where that leaves as many as it asks for."""
    paths = Paths(given)
    alias = "|".join(re.escape(it) for it in aliases)
    declared = re.findall(r"(?m)^([\w'+-]+)\s*:\s*(?:\([^)]*\)\s*→\s*)*(?:%s)\.Needs?-(%s)" % (alias, PART), text)
    gone = [name for name, need in declared if not paths.place_of_goal(need)]
    if not gone or len(declared) - len(gone) != len(given["needs"]):
        return text
    chunks = re.split(r"(?m)^(?=[^\s\-])", text)
    kept = []
    for chunk in chunks:
        m = re.match(r"([\w'+-]+)\b", chunk)
        if m and m[1] in gone:
            tail = chunk[len(chunk.rstrip()):]
            comment = re.search(r"\n\n(?:--.*\n)+$", chunk)
            kept.append(comment[0].lstrip("\n") if comment else "")
            continue
        kept.append(chunk)
    text = "".join(kept)
    # and from the arguments of `spec`, the last declaration
    at = text.rfind("spec")
    head, tail = text[:at], text[at:]
    for name in gone:
        tail = re.sub(r"(?<![\w'.+-])\s*\b%s\b(?![\w'-])" % re.escape(name), "", tail, count=1)
    return head + tail


def without_constants(given, text):
    """A constant that a loop lent is no longer one of the loop's variables."""
    for (loop, names), changed in zip(given["loops"], given["changed"]):
        want = len(names) + sum(changed)
        for word in ("invariant", "decreases"):
            def binders(m):
                all = m[2].split()
                if len(all) > want:
                    spare = [it for it in all if re.fullmatch(r"t\d+₀?", it)]
                    if len(all) - len(spare) == want:
                        return m[1] + " ".join(it for it in all if it not in spare) + m[3]
                return m[0]

            text = re.sub(r"(?m)^(%s[-_]%s )((?:[\w₀']+ ?)+)( =)" % (word, re.escape(loop[0]).replace("\\-", "[-_]")), binders, text)
    return text
