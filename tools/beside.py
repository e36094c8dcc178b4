#!/usr/bin/env python3
"""Prints what changed between two trees, old and new side by side, for docs/DESIGN-PASS.md.

    python3 tools/beside.py OLD NEW

Signatures, clauses, ghost items, definitions of specs/ and statements of lemmas in proofs/, by text alone,
as the kit's port/contracts.py finds them. Lines with - are old, lines with + new.
"""
import importlib.util
import os
import re
import sys

spec = importlib.util.spec_from_file_location("contracts", "/opt/rattle/port/contracts.py")
contracts = importlib.util.module_from_spec(spec)
spec.loader.exec_module(contracts)


def statements(root):
    """The statement of each lemma in proofs/: what stands before its first equation."""
    found = {}
    top = os.path.join(root, "crates")
    for crate in sorted(os.listdir(top)):
        base = os.path.join(top, crate, "proofs")
        for folder, _, names in os.walk(base):
            for file in sorted(names):
                if not file.endswith(".antt") or file in ("Answers.antt", "Invariants.antt", "Proof.antt", "Lib.antt"):
                    continue
                with open(os.path.join(folder, file), encoding="utf-8") as handle:
                    raw = handle.read()
                for name, texts in contracts.definitions(raw).items():
                    for text in texts:
                        if "pub" not in text.split(":")[0].split() and not text.startswith(("record", "pub record", "data")):
                            continue
                        cut = re.split(r"\s" + re.escape(name) + r"(?=\s[^:]*=|\s*=)", text)[0]
                        found.setdefault((crate, name), []).append(contracts.squeeze(cut.replace("abbrev ", "")))
    return found


def stated(found):
    """Definitions with their text; of a lemma the statement alone."""
    out = {}
    for (crate, name), texts in found.items():
        for text in texts:
            if not re.match(r"(pub )?(abbrev|unfoldable|opaque|record|data)\b", text):
                text = re.split(r"\s" + re.escape(name) + r"(?=\s[^:]*=|\s*=)", text)[0]
            out.setdefault((crate, name), []).append(text.strip())
    return out


def block(title, rows):
    if rows:
        print(f"\n### {title}\n\n```diff")
        print("\n".join(rows))
        print("```")


def pair(title, old, new):
    rows = [f"@ {title}"]
    rows += [f"- {text}" for text in old if text not in new]
    rows += [f"+ {text}" for text in new if text not in old]
    return rows


def main():
    old, new = sys.argv[1:3]
    r = contracts.compare(old, new)
    clause = lambda kind, c: f"{kind}{' ' + c[0] if c[0] else ''} {{ {c[1]} }}"
    rows = []
    _, of, og, os_, _, _ = contracts.read(old)
    _, nf, ng, ns, _, _ = contracts.read(new)
    public = {" ".join(p for p in k if p) for k, v in of.items() if any(x["pub"] for x in v)}
    for name, a, b in r["signatures changed"]:
        if name in public:
            rows += pair(name, [a], [b])
    block("Public signatures", rows)
    rows = []
    for name, req, ens, req2, ens2 in r["contracts changed"]:
        rows += pair(
            name,
            [clause("requires", c) for c in req] + [clause("ensures", c) for c in ens],
            [clause("requires", c) for c in req2] + [clause("ensures", c) for c in ens2],
        )
    block("Clauses", rows)
    plain = lambda f: {(k[0], k[1], k[2], k[3]): x for k, v in f.items() for x in v if not x["test"] and not x["in tests"]}
    olds, news = plain(of), plain(nf)
    rows = []
    gone = {tuple(g.split(" (requires")[0].split(" ")) for g in r["functions not found again"]}
    for key, x in sorted(olds.items()):
        if tuple(p for p in key if p for p in p.split(" ")) in gone:
            rows.append(f"- {' '.join(p for p in key if p)}{x['sign']}")
            rows += [f"-     {clause('requires', c[1:])}" for c in x["requires"]] + [f"-     {clause('ensures', c[1:])}" for c in x["ensures"]]
    block("Functions that are gone", rows)
    names = {(k[0], k[3]) for k in olds}
    rows = []
    for key, x in sorted(news.items()):
        if (key[0], key[3]) not in names:
            rows.append(f"+ {' '.join(p for p in key if p)}{x['sign']}")
            rows += [f"+     {clause('requires', c[1:])}" for c in x["requires"]] + [f"+     {clause('ensures', c[1:])}" for c in x["ensures"]]
    block("Functions that are new", rows)
    for title, a, b in (("Ghost items and constants", og, ng), ("Definitions and laws of specs/", stated(os_), stated(ns)), ("Lemmas in proofs/", statements(old), statements(new))):
        rows = []
        for key in sorted(set(a) | set(b)):
            x, y = a.get(key, []), b.get(key, [])
            if sorted(x) != sorted(y) and (x or title != "Lemmas in proofs/"):
                rows += pair(" ".join(key), x, y)
        block(title, rows)


main()
