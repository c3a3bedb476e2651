#!/usr/bin/env python3
"""Brings the repository's own definitions and lemmas to today's spelling: words in snake case, as `web_of` for `webOf`
and `part_next` for `part-next`. Run once, at the top, on what the kit's port.py left.

usage: tools/respell.py          rewrites files of crates/, docs/ and README.md in place
       tools/respell.py --list   prints each old and new name, and names that would fall together in a file

A name is the repository's own where one of its .antt files declares it. Types and modules keep their capitals, functions
of src/, exported C names, strings, inputs and outputs keep their names.
"""

import glob
import os
import re
import sys

WORD = r"[^\s(){}.;,@\"«»\[\]\\`]+"
KEYWORDS = {"pub", "abbrev", "unfoldable", "instance", "record", "data", "ruleset", "module", "let", "use", "where"}
DECLARED = re.compile(r"(?m)^\s*(?:(?:pub|abbrev|unfoldable|instance|record|data|ruleset) )*(%s)(?: [^:=\n]*)? [:=](?=\s)" % WORD)
USED = re.compile(r"(?m)^\s*(?:pub |unfoldable |ghost )*use (%s(?:\.%s)*)\.\{([^}]*)\}" % (WORD, WORD))
COMMENT = re.compile(r"--[^\n]*")


def is_odd(name):
    return bool(re.search(r"\w-\w", name) or re.match(r"[a-z]\w*?[A-Z]", name)) and name[0].islower()


def turned(name):
    """The name in snake case."""
    name = re.sub(r"(?<=[a-z0-9])([A-Z])", lambda m: "_" + m[1].lower(), name)
    name = re.sub(r"(?<=[\w'])-(?=\w)", "_", name)
    return re.sub(r"_([A-Z])", lambda m: "_" + m[1].lower(), name)


def read(path):
    with open(path, encoding="utf-8", newline="") as f:
        return f.read()


def below(ending):
    return sorted(f for f in glob.glob("crates/**/*" + ending, recursive=True) if "/out/" not in f)


def own_crates():
    return {d for d in os.listdir("crates") if os.path.isdir(os.path.join("crates", d, "src"))}


def own_names(files):
    """The old and the new spelling of each name that a file declares and no file has from elsewhere."""
    crates, declared, foreign, shown = own_crates(), set(), set(), set()
    for path in files:
        text = COMMENT.sub("", read(path))
        here = {m[1] for m in DECLARED.finditer(text)}
        declared |= here
        if not path.endswith("/Proof.antt"):
            shown |= here
        for m in USED.finditer(text):
            parts = m[1].split(".")
            if parts[0] != "Rattle" or parts[1] not in crates:
                foreign |= {it.split(" as ")[0].strip() for it in m[2].split(",")}
    names = {it for it in declared if is_odd(it) and it not in foreign and it not in KEYWORDS}
    # Where a lemma would get the name of a definition, of another lemma or of one of std's, it ends in _lem.
    taken = foreign | {it for it in shown if "-" not in it and it not in names} | {turned(it) for it in names & shown if "-" not in it}
    return {it: turned(it) + ("_lem" if "-" in it and it in shown and turned(it) in taken else "") for it in names}


def fallen(path, names):
    """Pairs of names of a file that would have one spelling."""
    seen = {}
    for m in re.finditer(WORD, COMMENT.sub("", read(path))):
        seen.setdefault(names.get(m[0], m[0]), set()).add(m[0])
    return {new: old for new, old in seen.items() if len(old) > 1}


def in_code(text, names):
    return re.sub(WORD, lambda m: names.get(m[0], m[0]), text)


def in_prose(text, names):
    """Prose names a definition in camel case, or between backticks."""
    text = re.sub(r"`[^`\n]*`", lambda m: in_code(m[0], names), text)
    camel = {old: new for old, new in names.items() if re.search("[A-Z]", old) and "-" not in old}
    return in_code(text, camel)


def in_antt(text, names):
    parts = re.split(r"(--[^\n]*|\"(?:[^\"\\\n]|\\.)*\")", text)
    return "".join(it if it.startswith('"') else in_prose(it, names) if it.startswith("--") else in_code(it, names) for it in parts)


def in_source(text, names):
    parts = re.split(r"(//[^\n]*|b?\"(?:[^\"\\\n]|\\.)*\")", text)
    return "".join(it if it.startswith(('"', 'b"')) else in_prose(it, names) if it.startswith("//") else in_code(it, names) for it in parts)


def in_edit(text, names):
    return "\n".join(in_prose(it, names) if it.startswith("#") else in_source(it, names) for it in text.split("\n"))


def in_page(text, names):
    """A page names a law as `crate/Module.law`, or a definition in camel case."""
    text = re.sub(r"`[^`\n]*`", lambda m: re.sub(r"(?<=[\w'])\.(%s)" % WORD, lambda n: "." + names.get(n[1], n[1]), m[0]), text)
    camel = {old: new for old, new in names.items() if re.search("[A-Z]", old)}
    return re.sub(WORD, lambda m: camel.get(m[0], m[0]), text)


def rewrite(path, turn, names):
    old = read(path)
    new = turn(old, names)
    if new != old:
        with open(path, "w", encoding="utf-8", newline="") as f:
            f.write(new)
    return new != old


def main():
    files = below(".antt")
    names = own_names(files)
    if "--list" in sys.argv[1:]:
        for path in below(".rt"):
            for new, old in fallen(path, names).items():
                print("together:", path, new, *sorted(old))
        for old, new in sorted(names.items()):
            print(old, new)
        for path in files:
            for new, old in fallen(path, names).items():
                print("together:", path, new, *sorted(old))
        return 0
    pages = ["README.md", *sorted(glob.glob("docs/**/*.md", recursive=True))]
    count = 0
    for paths, turn in ((files, in_antt), (below(".rt"), in_source), (below(".edit"), in_edit), (pages, in_page)):
        count += sum(rewrite(path, turn, names) for path in paths)
    print("respelled %d names in %d files" % (len(names), count))
    return 0


if __name__ == "__main__":
    sys.exit(main())
