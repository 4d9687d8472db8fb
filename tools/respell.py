#!/usr/bin/env python3
"""Brings this repository's own definitions and lemmas to the spelling of today's Rattle: words in snake case.

usage: python3 tools/respell.py [--check]     at the top of the repository, once, right after the kit's port.py

What is declared in specs/ and proofs/ (definitions, lemmas, constructors, record fields) and begins with a small letter turns:
aCapitalInside and a-dash become an_underscore. Names of types and modules, of functions and structs of src/, and names that Rattle
makes for goals stay. A new name that something else has already is printed, and takes the one that TAKEN gives it.
It goes over specs/, proofs/, the clauses and comments of src/ and the edits of must-fail/.
"""

import os
import re
import sys

WORD = re.compile(r"[^\s(){}.;,@\"«»`⌜⌝?!:\[\]]+")
# a new name that a function, a library or another definition has: what it is called instead
TAKEN = {"idle-next": "idle_is_next", "encode-rules": "encoded_rules", "page-told": "page_is_told", "part-place": "part_place_is"}
KEYWORDS = {"as", "in", "data", "record", "open", "use", "let", "where", "elim", "mod", "pub", "abbrev", "ghost", "ruleset"}


def files(end):
    for top, dirs, names in os.walk("crates"):
        dirs[:] = sorted(d for d in dirs if d not in ("out", "target"))
        for n in sorted(names):
            if n.endswith(end):
                yield os.path.join(top, n)


def snake(name):
    name = re.sub(r"(?<=[a-z0-9])([A-Z]+)(?=[A-Z][a-z])", lambda m: "_" + m.group(1).lower() + "_", name)
    name = re.sub(r"(?<=[a-z0-9'])([A-Z])", lambda m: "_" + m.group(1).lower(), name)
    return name.replace("-", "_")


def declared(text):
    """The names that a file declares: definitions and lemmas, also inside a module or a where; constructors, fields and variables."""
    inside = None
    for line in text.split("\n"):
        if line.lstrip().startswith("--"):
            continue
        head = re.match(r"(?:(?:abbrev|unfoldable|pub|ruleset) )*(data|record) ", line)
        if head:
            inside = head.group(1)
        elif line and not line.startswith(" "):
            inside = None
        m = re.match(r" *(?:(?:abbrev|unfoldable|pub|ruleset) )*([^\s(){}.;,]+) :\s*(.*)", line)
        if m and not re.match(r"(tie|goal)\.", m.group(2)):
            yield m.group(1)
        if inside:
            m = re.match(r"  +([^(){}:]*?) :\s", line)
            if m:
                yield from (w for w in m.group(1).split() if w != "pub")
        for m in re.finditer(r"[({]([^\s(){}.;,:]+(?: [^\s(){}.;,:]+)*) :\s", line):
            yield from m.group(1).split()


def imported(text):
    for m in re.finditer(r"\buse ([^\s{;]+)\.\{([^}]*)\}", text):
        if not m.group(1).startswith("Rattle.") or m.group(1).startswith(("Rattle.std.", "Rattle.core.")):
            for it in m.group(2).split(","):
                yield it.strip().split(" as ")[-1].strip()


def main(argv):
    texts = {p: open(p, encoding="utf-8").read() for end in (".antt", ".rt", ".edit") for p in files(end)}
    names, library, functions = set(), set(), set()
    for p, t in texts.items():
        if p.endswith(".antt"):
            names |= set(declared(t))
            library |= set(imported(t))
        if p.endswith(".rt"):
            library |= set(imported(t))
            functions |= set(re.findall(r"\b(?:fn|struct|enum|mod|const) (\w+)", t))
    turned = {}
    for n in sorted(names):
        if n[0].islower() and snake(n) != n and n not in library and "◌" not in n:
            turned[n] = TAKEN.get(n, snake(n))
    news = {}
    for old, new in turned.items():
        others = [w for w, s in (("a definition", names), ("a library's name", library), ("an item of src/", functions), ("a keyword", KEYWORDS)) if new in s]
        if new in news:
            others.append("the new name of " + news[new])
        news[new] = old
        if others:
            print(f"{old} -> {new}: {', '.join(others)}")
    if "--check" in argv:
        print(f"{len(turned)} names")
        return 0

    def turn(m):
        w, s = m.group(0), m.string
        before = s[max(0, m.start() - 5) : m.start()]
        if before.endswith(("tie.", "goal.")):
            return w
        return turned.get(w, w)

    for p, t in texts.items():
        new = WORD.sub(turn, t)
        if new != t:
            with open(p, "w", encoding="utf-8") as f:
                f.write(new)
    print(f"{len(turned)} names turned")
    return 0


if __name__ == "__main__":
    raise SystemExit(main(sys.argv[1:]))
