#!/usr/bin/env python3
"""Brings this repository's own definitions and lemmas to the spelling of today's Rattle.

usage: python3 tools/respell.py      at the top, once, after the toolchain's port.py
       python3 tools/respell.py -n   tells the names, writes nothing

A definition, a lemma or a record's field is in snake case, a type in upper camel case: `path-guard` becomes
`path_guard`, `Ignores-from` becomes `IgnoresFrom`. The names are those that the repository's own .antt files
declare, but for the answers that Rattle names itself (`returns-2 : goal.returns-2`). They are turned in .antt
files and, in .rt files and must-fail edits, everywhere but in comments and strings. Names that would fall
together with another name of the repository are told, and nothing is written.
"""

import glob
import re
import sys

WORD = r"[^\s(){}\[\]⟦⟧.,;«»\"]+"
DECLARED = re.compile(
    r"^\s*(?:(?:abbrev|unfoldable|pub|record|data)\s+)*(" + WORD + r"(?:\s+" + WORD + r")*?)"
    r"\s*(?:\([^=]*\)\s*|\{[^=]*\}\s*)*:\s+(\S.*)?$"
)


# A lemma beside a ghost field of that name.
GIVEN = {"one-empty": "one_empty_lem"}

# Named as the function that computes it, as the toolchain's own words are, or as a field of another struct.
SHARED = {
    "all-below",
    "choice-for",
    "columns-within",
    "count-parts",
    "fifth-label",
    "is-counted",
    "release-day",
    "shown-cells",
}


def files(*patterns):
    return sorted(p for pattern in patterns for p in glob.glob(pattern, recursive=True))


def own_names():
    """The names that the repository declares, with whether Rattle made one of them."""
    own, made = set(), set()
    for path in files("crates/*/specs/**/*.antt", "crates/*/proofs/**/*.antt"):
        for line in open(path, encoding="utf-8"):
            if line.lstrip().startswith("--"):
                continue
            found = DECLARED.match(line)
            for name in found.group(1).split() if found else []:
                if (found.group(2) or "").startswith("goal."):
                    made.add(name)
                else:
                    own.add(name)
    return own - made


def respelled(name):
    if name in GIVEN:
        return GIVEN[name]
    parts = name.split("-")
    if name[0].isupper():
        return "".join(part[:1].upper() + part[1:] for part in parts)
    snake = "_".join(parts)
    return re.sub(r"(?<=[a-z])([A-Z])(?=[a-z])", lambda m: "_" + m.group(1).lower(), snake)


def turned(text, names):
    return re.sub(WORD, lambda m: names.get(m.group(0), m.group(0)), text)


def turned_code(line, names):
    """A line of a .rt file: not its strings, not its comment."""
    comment = re.search(r"(?<![:\"])//", line)
    code, rest = (line[: comment.start()], line[comment.start() :]) if comment else (line, "")
    pieces = re.split(r'("(?:[^"\\]|\\.)*")', code)
    return "".join(p if p.startswith('"') else turned(p, names) for p in pieces) + rest


def main(argv):
    names = {n: respelled(n) for n in own_names() if "-" in n and re.match(r"^[A-Za-z]", n)}
    antt = files("crates/*/specs/**/*.antt", "crates/*/proofs/**/*.antt")
    words = set()
    for path in antt:
        for line in open(path, encoding="utf-8"):
            if not line.lstrip().startswith("--"):
                words.update(re.findall(WORD, line))
    if argv == ["-n"]:
        for name in sorted(names):
            print(f"{name} -> {names[name]}")
        return 0
    new_names = list(names.values())
    together = sorted(n for n in names if names[n] in words or new_names.count(names[n]) > 1)
    together = [n for n in together if n not in SHARED]
    for name in together:
        print(f"falls together: {name} -> {names[name]}")
    if together:
        return 1
    for path in antt:
        text = open(path, encoding="utf-8").read()
        new = "".join(l if l.lstrip().startswith("--") else turned(l, names) for l in text.splitlines(keepends=True))
        if new != text:
            open(path, "w", encoding="utf-8").write(new)
    for path in files("crates/*/src/**/*.rt", "crates/*/must-fail/*.edit"):
        text = open(path, encoding="utf-8").read()
        new = "".join(turned_code(l, names) for l in text.splitlines(keepends=True))
        if new != text:
            open(path, "w", encoding="utf-8").write(new)
    print(f"respelled {len(names)} names")
    return 0


if __name__ == "__main__":
    raise SystemExit(main(sys.argv[1:]))
