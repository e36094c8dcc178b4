#!/usr/bin/env python3
"""Lists the places in src/ that a point of the design pass may speak of.

    python3 tools/places.py POINT [FOLDER]

POINT is from 1 to 7; FOLDER is the top of a checkout (the current folder where none is given). Tests are
left out. Each hit is a candidate: docs/DESIGN-PASS.md says which hits are places, and what became of them.
The last line is the number of hits.
"""
import collections
import pathlib
import re
import sys

WORDS = set(
    "fn pub let mut if else match for in while loop return impl struct enum trait const self Self as ref "
    "true false where use mod crate Some None Ok Err break continue".split()
)


def sources(top):
    for path in sorted(pathlib.Path(top, "crates").glob("*/src/**/*.rt")):
        if path.name not in ("tests.rt", "owner.rt"):
            yield path


def lines(top):
    for path in sources(top):
        for number, line in enumerate(path.read_text().splitlines(), 1):
            if not line.strip().startswith("//"):
                yield path, number, line


def by_pattern(top, pattern):
    found = re.compile(pattern)
    for path, number, line in lines(top):
        if found.search(line):
            print(f"{path.relative_to(top)}:{number}: {line.strip()}")
            yield line


def functions(text):
    """Name, parameters, clauses and body of each function."""
    for head in re.finditer(r"^\s*(?:pub(?:\(\w+\))? )?(?:const )?fn (\w+)", text, re.M):
        open_brace = None
        depth, at = 0, head.end()
        while at < len(text):
            c = text[at]
            if c == "{":
                before = text[:at].rstrip().splitlines()[-1].strip()
                clause = re.search(r"^(ensures\*?|requires)\b[^{]*$", before) or re.search(r"(ensures\*?|requires)( \w+)?$", text[:at].rstrip())
                depth, start = 1, at
                at += 1
                while depth:
                    depth += {"{": 1, "}": -1}.get(text[at], 0)
                    at += 1
                if clause:
                    continue
                open_brace = start
                break
            if c == ";" and not text[:at].rstrip().endswith("]") and text[head.end() : at].count("[") == text[head.end() : at].count("]"):
                break
            at += 1
        if open_brace is not None:
            yield head.group(1), text[head.end() : open_brace], text[open_brace:at]


def shape(body):
    body = re.sub(r"//.*", "", body)
    tokens = re.findall(r'b?"(?:[^"\\]|\\.)*"|b?\'[^\']+\'|\w+|[^\s\w]', body)
    normal = []
    for token in tokens:
        if token in WORDS:
            normal.append(token)
        elif token[0] in "\"'" or token[:2] in ('b"', "b'"):
            normal.append("s")
        elif token[0].isdigit():
            normal.append("0")
        elif token[0].isalpha() or token[0] == "_":
            normal.append("T" if token[0].isupper() else "x")
        else:
            normal.append(token)
    return tuple(normal)


def twins(top):
    groups = collections.defaultdict(list)
    for path in sources(top):
        for name, _, body in functions(path.read_text()):
            form = shape(body)
            if len(form) >= 14:
                groups[form].append(f"{path.relative_to(top)}: {name}")
    for form, members in sorted(groups.items(), key=lambda g: g[1]):
        if len(members) > 1:
            print(f"{len(form)} tokens: " + "; ".join(members))
            yield from members[1:]


def travelling(top):
    """Facts in the clauses of three or more functions, and parameters of a crate that always come together."""
    having = collections.defaultdict(set)
    facts = collections.defaultdict(set)
    for path in sources(top):
        crate = path.relative_to(top).parts[1]
        for name, head, _ in functions(path.read_text()):
            where = f"{path.relative_to(top)}: {name}"
            params = re.sub(r"(ensures|requires)[\s\S]*", "", head)
            params = re.sub(r"^\s*<[^(]*>(?=\()", "", params)
            for param in re.findall(r"\b(\w+): ([^,()]+(?:\([^)]*\))?)", params):
                having[crate, param[0], param[1].strip()].add(where)
            for fact in re.findall(r"((?:Sound|Standing) [^→{]*?|[\w.]*\bvalid [^→{(]*?) →", head):
                facts[re.sub(r"\b(self|pool|volume|device|list|pile|below)\b.*", "x", fact.strip())].add(where)
    for fact, where in sorted(facts.items()):
        if len(where) > 2:
            print(f"the premise {fact}: {len(where)} functions")
            yield from where
    for one, where in sorted(having.items()):
        for other, there in sorted(having.items()):
            if one < other and one[0] == other[0] and where == there and len(where) > 2:
                print(f"{one[0]}: {one[1]}: {one[2]} with {other[1]}: {other[2]}: {len(where)} functions: " + "; ".join(sorted(w.split(': ')[1] for w in where)))
                yield one


PATTERNS = {
    "1": r"^\s*(pub(\(\w+\))? )?enum |^\s*(pub(\(\w+\))? )?\w+: bool,|const [A-Z_]+: u8|Result<bool",
    "3": r"^\s*(for|while|loop) |^\s*\w+ \+= 1;|^\s*(\w+) = \2.saturating_add\(1\)",
    "4": r"impl.* (PartialEq|Eq|Ord|PartialOrd|Clone|From<[^>]*>|TryFrom<[^>]*>|fmt::Display) for|(Ok|Some)\((\w+)\) => \(?(Ok|Some)\(|Err\(.*\) => Err\(|None => None|fn (name|words|reason|number|numbered|is|before|worse_mark)\(",
    "6": r"^\s*(pub(\(\w+\))? )?\w+: \[.*; \w+\]|^\s*(pub(\(\w+\))? )?\w*len: usize|(\w+): &mut \[\w+; 64\]|^\s*(pub(\(\w+\))? )?used: usize|table: &mut \[|^\s*lines: Vec",
    "7": r"fn\(|match (kind|kept|subject|self\.subject|self\.workload|self\.times|settings\b|of|book) \{|match self \{",
}


def main():
    point = sys.argv[1]
    top = sys.argv[2] if len(sys.argv) > 2 else "."
    top = pathlib.Path(top)
    if point == "2":
        hits = list(twins(top))
    elif point == "5":
        hits = list(travelling(top))
    else:
        hits = list(by_pattern(top, PATTERNS[point]))
    print(f"{len(hits)} hits")


main()
