#!/usr/bin/env python3
"""Brings the names of this repository's own definitions and lemmas to snake case.

usage: python3 tools/respell.py [--dry]        at the top of the repository, once, after port.py

A name in camel case, as stateAt, becomes state_at. In a name with dashes a dash stays where it joins two
names that are defined somewhere, as in length-take, and becomes _ elsewhere, as in exit_passed. Names that
the check makes (goals, steps), names of Rattle sources and names of types stay. Where two names of one file
would fall together, the one with a dash gets _lem.
"""

import collections
import os
import re
import sys

KIT = "/opt/rattle/rattle"
TOKEN = re.compile(r"[^\s(){}\[\];,.]+")
DEFINED = re.compile(r"\s*((?:abbrev |unfoldable |pub |data |record )*)([^\s:(){};,.]+) :(?: (.*)|$)")
# Lemmas whose name a definition is about to have, by the file that alone cites them.
FIRST = {
    "crates/published/proofs/AtOnces.antt": {"same_kind": "same_kind_lem"},
    "crates/two_q/proofs/Tails.antt": {"tail_of": "tail_of_lem"},
}
# Fields of records, and lemmas that stand beside them, that two known words would leave with a dash.
FIELDS = "hit-again held-choice not-lost not-worn batch-fits lost-page worn-page six-counts six-blocks near-blocks two-kept not-less not-counted self-counted".split()
# Names that a file gives to an import by `as`; a module's is in upper camel case.
ALIASES = {n: None for n in "fitsIn hitsIn idleIn insteadOf isCandidate isOutside lesserOf pinsIn unpinnedOf frameAt freshOf pinnedOf leavingOf".split()} | {"batchRecord": "BatchVariants", "feeRecord": "FeeVariants"}
CAMEL = re.compile(r"[a-z][\w'-]*[a-z0-9][A-Z]")


def texts():
    for folder, dirs, files in os.walk("crates"):
        dirs[:] = sorted(d for d in dirs if d != "out")
        for f in sorted(files):
            if f.endswith((".antt", ".rt", ".edit")):
                yield os.path.join(folder, f)


def snake(name):
    return re.sub(r"([a-z0-9])([A-Z])", lambda m: m.group(1) + "_" + m.group(2).lower(), name)


def library():
    words = set()
    for path in ("core/specs/Prelude.antt", "std/specs/Prelude.antt", "std/proofs/Common.antt"):
        with open(os.path.join(KIT, path)) as f:
            for names in re.findall(r"\{([^}]*)\}", f.read()):
                words |= {n.strip() for n in names.split(",")}
    return words


def definitions(files):
    found = collections.defaultdict(set)
    made = set()
    for p, text in files.items():
        if not p.endswith(".antt"):
            continue
        made |= set(re.findall(r"\bgoal\.([\w'-]+)", text))
        for line in text.split("\n"):
            m = DEFINED.match(line)
            if m and not line.strip().startswith("--") and not (m.group(3) or "").startswith("goal."):
                found[m.group(2)].add(p)
    return found, made


def locals_in(files):
    """Names bound by let, a lambda or a parameter, in camel case."""
    found = set()
    for p, text in files.items():
        if p.endswith(".antt"):
            text = re.sub(r"--.*", "", re.sub(r'"[^"]*"', "", text))
            found |= {t for t in TOKEN.findall(text) if CAMEL.match(t) and "-" not in t}
    return found


def renaming(files):
    found, made = definitions(files)
    known = {snake(n) for n in found if "-" not in n} | library()
    to = {}
    for n, new in ALIASES.items():
        to[n] = new or snake(n)
    for n in set(found) | locals_in(files):
        if n in made or not re.match(r"[a-z]", n):
            continue
        new = snake(n) if CAMEL.match(n) else n
        if "-" in new:
            parts = new.split("-")
            if n in FIELDS or not all(a in known and len(a) > 2 for a in parts):
                new = "_".join(parts)
        if new != n:
            to[n] = new
    return to, found


def turn(line, to, fall):
    prose = line.strip().startswith(("--", "//"))

    def word(m):
        w = m.group(0)
        new = to.get(w)
        if new is None or prose and "-" in w:
            return w
        before = line[: m.start()]
        if "-" in w and before.endswith(".") and w not in FIELDS:
            return w
        return fall.get(w, new)

    return TOKEN.sub(word, line)


def main():
    dry = "--dry" in sys.argv
    files = {}
    for p in texts():
        with open(p, encoding="utf-8") as f:
            files[p] = f.read()
        for old, new in FIRST.get(p, {}).items():
            files[p] = TOKEN.sub(lambda m: new if m.group(0) == old else m.group(0), files[p])
    to, found = renaming(files)
    fall = {}
    for p, text in files.items():
        here = set(TOKEN.findall(text))
        for w in sorted(here & set(to)):
            new = to[w]
            others = {v for v in here if v != w and to.get(v, v) == new}
            if others:
                if "-" in w:
                    fall[w] = new + "_lem"
                print(f"falls together in {p}: {w} and {' '.join(sorted(others))} at {new}")
    for w in sorted(to):
        print(w, "->", fall.get(w, to[w]))
    for p, text in files.items():
        new = "\n".join(turn(l, to, fall) for l in text.split("\n"))
        if new != open(p, encoding="utf-8").read() and not dry:
            with open(p, "w", encoding="utf-8") as f:
                f.write(new)


main()
