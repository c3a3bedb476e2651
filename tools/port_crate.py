#!/usr/bin/env python3
"""Brings the proofs of crates to the names that today's Rattle makes for goals and steps, and checks them.

usage: tools/port_crate.py NAME..

A Proof.antt cites goals as `tie.Need-x`, steps as `c.before.loop` and arguments as `c.args.t1`. Today's check lists the old
and the new name of each, `rt check --generated DIR --old-names`, and this writes the new one. Derives `Clone, Copy` on
each struct and enum that port.py made only `Drop`, and asks for `#![tactic(auto)]`, each once. A proof file is turned only
where it is still as the port left it (BASE), so it is safe to run again; to turn one anew, check it out of BASE.
"""

import json
import os
import re
import subprocess
import sys
import tempfile

import goal_paths

BASE = "10d868f"  # the commit in which port.py ran
ROOT = os.path.dirname(os.path.dirname(os.path.abspath(__file__)))
plain = goal_paths.plain
NAMES = os.path.join(tempfile.gettempdir(), "names-of-proofs")
WORD = r"[^\s(){}.;,@\"«»\[\]\\]+"


def read(path):
    with open(path, encoding="utf-8") as f:
        return f.read()


def write(path, text):
    with open(path, "w", encoding="utf-8") as f:
        f.write(text)


def below(folder, ending):
    return [os.path.join(at, f) for at, _, files in os.walk(folder) for f in sorted(files) if f.endswith(ending)]


def sources(home):
    for path in below(os.path.join(home, "src"), ".rt"):
        old = read(path)
        text = old.replace("#[derive(Drop)]", "#[derive(Clone, Copy)]")
        if os.path.basename(path) in ("lib.rt", "main.rt") and "#![tactic(auto)]" not in text:
            at = re.search(r"(?m)^(?!//|\s*$)", text)
            at = at.start() if at else len(text)
            text = text[:at] + "#![tactic(auto)]\n\n" + text[at:]
        if text != old:
            write(path, text)


OWN = {"type-inv": "type_inv", "well-formed": "well_formed", "loan-name": "loan_name", "branch": "branch-raw"}


class Names:
    """The new names of one function's proof."""

    def __init__(self, given):
        self.needs = {plain(old): new for old, new in given["needs"]}
        self.places = {plain(it[0]): new for it, new in zip(given["places"], given["places_by_name"])}
        steps = [(it[0].startswith("Joined"), plain(it[2][0]), it[2][1]) for it in given["places"] if it[2][0]]
        self.steps = {old: new for joined, old, new in steps if not joined}
        # Where several tests join, the join has a name of its own.
        self.joins = {old: new for joined, old, new in steps if joined}
        self.loops = {plain(it[0][0]): it[0][1] for it in given["loops"]}
        self.args = sorted(((a.replace(" ", ""), b.replace(" ", "")) for a, b in given["args"]), key=lambda it: -len(it[0]))

    def of_tie(self, word):
        for prefix in ("Need-", "Needs-"):
            if word.startswith(prefix):
                need = plain(word[len(prefix):])
                # port.py called an index's goal a bound's.
                need = need if need in self.needs else re.sub(r"^bounds-", "index-", need)
                if need in self.needs:
                    return prefix + self.needs[need]
        if plain(word) in self.places:
            return self.places[plain(word)]
        for prefix in ("invariant", "decreases"):
            if word.startswith((prefix + "-", prefix + "_")) and plain(word[len(prefix) + 1:]) in self.loops:
                return prefix + "-" + self.loops[plain(word[len(prefix) + 1:])]
        return word

    def path(self, m):
        """A path from a place: up by `before`, then a step or `args`, then fields, which keep their names."""
        root, *parts = m[0].split(".")
        turned, open_ = [root], True
        for it, after in zip(parts, [*parts[1:], ""]):
            it = OWN.get(it, it)
            if open_ and it not in ("before", "end"):
                # respell.py also gave a step the name of a lemma, as `in_class_lem` for the call of `in_class`.
                lemma = it[:-4] if it.endswith("_lem") else it
                steps = {**self.joins, **self.steps} if after in ("true", "false") else {**self.steps, **self.joins}
                new = steps.get(plain(it), steps.get(plain(lemma), it))
                open_ = False
                it = new
            turned.append(it)
        return ".".join(turned)

    def args_named(self, text):
        """The arguments of a declaration that names them first, as in `let s = c.before.args in .. s.t1`."""
        for name in set(re.findall(r"\blet ([\w']+) = [\w.'-]+\.args in\b", text)):
            for old, new in self.args:
                if old.startswith(".args."):
                    text = re.sub(r"(?<![\w.'-])%s%s(?![\w·'-])" % (re.escape(name), re.escape(old[5:])), name + new[5:], text)
        return text

    def turn(self, text, aliases=()):
        for alias in ("tie", *aliases):
            text = re.sub(r"(?<![\w.-])%s\.(%s)" % (re.escape(alias), WORD), lambda m: alias + "." + self.of_tie(m[1]), text)
        for old, new in self.args:
            text = re.sub(re.escape(old) + r"(?![\w·'-])", new, text)
        return "\n\n".join(self.args_named(it) for it in text.split("\n\n"))

    def by_name(self, text):
        """A declaration whose place is not known: its steps by their names."""
        path = r"(?<![\w.'-])[a-z][\w']*(?:\.[^\s(){}.;,@\"«»\[\]\\]+)+|(?<=[)}])(?:\.[^\s(){}.;,@\"«»\[\]\\]+)+"
        return re.sub(path, self.path, text)


ATOM = r"\((?:[^()]|\((?:[^()]|\((?:[^()]|\((?:[^()]|\([^()]*\))*\))*\))*\))*\)(?:\.[\w'-]+)*|[A-Za-z][\w']*(?:\.[\w'-]+)+|_"
AFTER = r"(?:[A-Za-z][\w']*(?:\.[\w'-]+)*)\.(?:true|false)"


def stopped(m):
    """`stops s (λ x. part) e` by the fields of s."""
    part = re.fullmatch(r"\(λ (\w+)\. (.*)\)", m[2], re.S)
    x, it = (part[1], part[2]) if part else ("it", m[2] + " it")
    return "no_says (λ %s. %s.no %s (%s))" % (x, m[1], m[3], it)


def untested(text):
    """After `if !x` today's branch says what x is, and no longer what its denial is."""
    if re.search(r"(?m)^use \S*\.Tests\.\{.*\b(denied|passed|stops)\b", text):
        text = re.sub(r"(?<![\w.'-])denied (%s) (?=%s)" % (ATOM, AFTER), r"\1.no ", text)
        text = re.sub(r"(?<![\w.'-])passed (%s) (?=%s)" % (ATOM, AFTER), r"\1.yes ", text)
        text, n = re.subn(r"(?<![\w.'-])stops\s+(%s)\s+(%s) (%s)" % (ATOM, ATOM, AFTER), stopped, text)
        if n and not re.search(r"(?m)^use .*\bno_says\b", text):
            text = re.sub(r"(?m)^(use \S+\.Tests\.)", r"use Rattle.laws.specs.Says.{no_says}\n\1", text, count=1)
    text = re.sub(r"\(not-(?:true|false) (?:%s) (%s)\)" % (ATOM, AFTER), r"\1", text)
    text = re.sub(r"(?<![\w.'-])not-(?:true|false) (?:%s) (%s)" % (ATOM, AFTER), r"\1", text)
    # And after the second test of an `&&` it says what the numbers are, and no longer what the test gives.
    after = r"[A-Za-z][\w']*(?:\.[\w'-]+)*\.if-[\w'-]*-(?:eq|ne)[\w-]*\.(?:true|false)"
    return re.sub(r"\(eqb-(?:true|false) (?:%s|\w+) (?:%s|\w+) (%s)\)" % (ATOM, ATOM, after), r"\1", text)


def spec_named(text, name):
    """The proof of f is f_spec."""
    return re.sub(r"(?m)^(pub )?%s[-_]spec (?=[:=])" % "[-_]".join(re.escape(it) for it in name.split("_")), lambda m: (m[1] or "") + name + "_spec ", text)


def without_gone(given, text, aliases):
    """Without the answers, by search alone, of goals that are no more."""
    new = {it[1] for it in given["needs"]}
    alias = "|".join(re.escape(it) for it in aliases)
    for m in re.findall(r"(?m)^((\w+) : (?:%s)\.Need-(slice-aggregate-[\w-]+)\n\2 [\w κσμ]*= search rules\n\n)" % alias, text):
        if m[2] not in new:
            text = re.sub(r"(?m)^    %s\n" % m[1], "", text.replace(m[0], ""))
    return text


# Laws that went from specs/ to proofs/ since, and that a file which is still as the port left it cites there.
MOVED = re.compile(r"\b(Rattle\.round_trip)\.proofs\.(RoundTrip|Reading)\b")


def at_base(path):
    shown = subprocess.run(["git", "show", BASE + ":" + os.path.relpath(path, ROOT)], cwd=ROOT, capture_output=True, text=True)
    return shown.stdout


def retie(home, listed):
    fresh = {}
    for key, given in listed.items():
        m = re.match(r"Rattle-(\w+)-proofs\.(.*)\.Lts(?:-(.*))?$", key)
        if not m:
            continue
        folder = m[2].split(".")
        path = os.path.join(home, "proofs", *folder, "Proof.antt")
        if not os.path.exists(path):
            continue
        old = read(path)
        if not fresh.setdefault(path, MOVED.sub(r"\1.specs.\2", old) == at_base(path)):
            continue
        # In a cycle of calls a file has the goals of each function, by a name of its own.
        use = r"(?m)^use \S+\.Lts-%s as (\S+)" % re.escape(m[3] or "-")
        aliases = re.findall(use, old)
        text = goal_paths.without_constants(given, goal_paths.without_settled(given, old, ["tie", *aliases]))
        text = goal_paths.turn(given, text, ["tie", *aliases], Names(given).by_name)
        text = spec_named(untested(Names(given).turn(text, aliases)), folder[-1])
        text = without_gone(given, text, ["tie", *aliases])
        if text != old:
            write(path, text)


def rt(home, *words):
    done = subprocess.run(["rt", *words], cwd=home, stdout=subprocess.PIPE, stderr=subprocess.STDOUT, text=True, errors="replace")
    return done.stdout


FIELDS = re.compile(r"(?m)^\.?/?(\S+\.antt):(\d+):\d+: error: .*\.(?:Kept|Last)-\d+` has no field `\d+`(.*)$")


def mend_fields(home, said):
    """What a call leaves of its `&mut` arguments goes by their names, not by their number."""
    changed = False
    said = said.replace("\n  the fields that", " the fields that")  # a long line goes on in the next
    for m in FIELDS.finditer(said):
        fields = re.findall(r"`([^`]+)`", m[3].split("(nearest")[0]) or ["out"]  # the usual name, where none is listed
        path = os.path.join(home, m[1])
        lines = read(path).split("\n")
        row = int(m[2]) - 1

        def named(it):
            at = it[2].count(".1") if it[2].endswith(".0") else len(fields) - 1
            return it[1] + "." + fields[min(at, len(fields) - 1)]

        new = re.sub(r"(\.(?:auto|new))((?:\.1)*\.0|(?:\.1)+)(?![\w-])", named, lines[row])
        if new != lines[row]:
            lines[row] = new
            write(path, "\n".join(lines))
            changed = True
    return changed


WAYS = re.compile(r"(?m)^\.?/?(\S+\.antt):(\d+):(\d+): error: .*\.By-[^`]+`\s+has no field `(\w+)`.*?(?:here are|nearest:?) ([^\n]*)$")
TOLD = {"taken": "true", "left": "false"}


def mend_ways(home, said):
    """What is known on one way to a join goes by the steps' names, not by their number."""
    changed = False
    said = re.sub(r"\n  (has no field|the fields that)", r" \1", said)
    for m in WAYS.finditer(said):
        fields = re.findall(r"[`.]([\w+-]+)", m[5])
        path = os.path.join(home, m[1])
        lines = read(path).split("\n")
        row, at = int(m[2]) - 1, int(m[3]) - 1
        line = lines[row]
        found = re.compile(r"\.%s(?![\w-])(\.taken|\.left)?" % m[4]).search(line, at)
        if not found or not fields:
            continue
        if m[4].isdigit():
            new = "." + fields[min(int(m[4]), len(fields) - 1)] + ("." + TOLD[found[1][1:]] if found[1] else "")
        elif m[4] in TOLD:
            new = "." + fields[0] + "." + TOLD[m[4]]
        else:
            continue
        lines[row] = line[:found.start()] + new + line[found.end():]
        write(path, "\n".join(lines))
        changed = True
    return changed


def mend_denials(home, said):
    """After `if !f.x` the branch still says what the denial is, so what `untested` took away comes back."""
    changed = False
    for m in re.finditer(r"(?m)^\.?/?(\S+\.antt):(\d+):(\d+): error: (.*(?:\n  .*)*)", said):
        if not re.search(r"Bool\.not ", m[4]) or not re.search(r"(?:≡|◌≡◌).*expected type|expected type", m[4]):
            continue
        path = os.path.join(home, m[1])
        lines = read(path).split("\n")
        row, column = int(m[2]) - 1, int(m[3]) - 1
        it = re.match(r"[A-Za-z][\w']*(?:\.[\w'-]+)*\.(true|false)(?![\w-])", lines[row][column:])
        if it and not lines[row][:column].endswith("_ "):
            lines[row] = lines[row][:column] + "(not-%s _ %s)" % (it[1], it[0]) + lines[row][column + len(it[0]):]
            write(path, "\n".join(lines))
            changed = True
    return changed


def port(name):
    home = os.path.join(ROOT, "crates", name)
    kept = os.path.join(NAMES, name)
    sources(home)
    rt(home, "fmt")
    os.makedirs(kept, exist_ok=True)
    if os.path.exists(kept + "/names.json"):
        os.remove(kept + "/names.json")
    said = rt(home, "check", "--generated", kept, "--old-names")
    if not os.path.exists(kept + "/names.json"):
        return said
    retie(home, json.loads(read(kept + "/names.json")))
    rt(home, "check")  # the first check after a listing may still read the old names
    said = rt(home, "check")
    for _ in range(8):
        if not (mend_fields(home, said) | mend_ways(home, said) | mend_denials(home, said)):
            break
        said = rt(home, "check")
    return said


def main():
    for name in sys.argv[1:]:
        said = port(name)
        write(os.path.join(NAMES, name + ".log"), said)
        proved = re.search(r"(?m)^logic=proved", said)
        errors = [l for l in said.splitlines() if "error" in l]
        print("%s: %s" % (name, "proved" if proved else "%d errors, %s.log" % (len(errors), os.path.join(NAMES, name))), flush=True)


if __name__ == "__main__":
    main()
