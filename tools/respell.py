#!/usr/bin/env python3
"""Gives the repository's own words in specs/ and proofs/ one spelling.

usage: python3 tools/respell.py        at the top of the repository, once; files are rewritten in place

A function, a lemma, a field and a constructor is written in snake case, and a type in upper camel case. A dash
stays where it joins two names that are functions themselves, as in `length-put`. The names of goals, the names of
the sources (functions, types, fields, variants) and what stands between quotes stay as they are. Two words that
would fall together are told, and then nothing is written.
"""

import glob
import re
import sys

HEAD = re.compile(r"^(?P<pad>\s*)(?P<words>(?:(?:abbrev|unfoldable|pub|data|record|ruleset)\s+)*)(?P<name>[A-Za-z][\w'-]*)(?P<rest>\s.*?)?\s?:(?:\s(?P<type>.*))?$")
TOKEN = re.compile(r"(?<![\w'-])[A-Za-z][\w'-]*")
STRING = re.compile(r'("(?:[^"\\]|\\.)*")')
LIBRARY = {"length", "map", "get_or", "take", "drop", "append"}

# words whose plain spelling another word has already
OTHERWISE = {"No-cell": "NoSuchCell", "type-at": "type_at_lem", "in-range": "in_range_lem", "getD-cellsOf": "get_or-cells_of", "greatest-below": "greatest_below"}

# variables, and names that a file gives to modules
LOCAL = {"if-true", "in-base", "well-formed", "sort-row", "section-row"}

# words that may have the name of a function of the sources: each says what that function returns
SHARED = {"port_at", "scalar_of", "variable_of", "if_true"}


def definitions(path):
    """The names that a file defines, and whether each is a word that computes."""
    for line in open(path, encoding="utf-8"):
        found = HEAD.match(line.rstrip("\n"))
        if not found or line.startswith(("use ", "--")):
            continue
        if found["pad"] and path.endswith(("/Answers.antt", "/Invariants.antt")):
            continue
        if "goal." in line or "=" in (found["rest"] or ""):
            continue
        yield found["name"], not found["pad"] and ("abbrev" in found["words"] or "unfoldable" in found["words"])


def snake(name):
    return re.sub(r"(?<=[a-z0-9])([A-Z])", lambda m: "_" + m.group(1).lower(), name)


def respelled(name, functions):
    if name in OTHERWISE:
        return OTHERWISE[name]
    if name[0].isupper():
        return re.sub(r"[-_]([a-z])", lambda m: m.group(1).upper(), name)
    parts = name.split("-")
    joined = len(parts) == 2 and all(p in functions or snake(p) in functions for p in parts)
    return ("-" if joined else "_").join(snake(p) for p in parts)


def replaced(text, names):
    def word(m):
        before = text[: m.start()]
        return m.group(0) if before.endswith("goal.") else names.get(m.group(0), m.group(0))

    return TOKEN.sub(word, text)


def outside_strings(text, names):
    return "".join(p if p.startswith('"') else replaced(p, names) for p in STRING.split(text))


def main():
    files = sorted(glob.glob("crates/*/specs/*.antt") + glob.glob("crates/*/proofs/**/*.antt", recursive=True))
    sources = sorted(glob.glob("crates/*/src/**/*.rt", recursive=True))
    pages = sorted(glob.glob("docs/*.md") + ["README.md"])
    found = {}
    for path in files:
        for name, computes in definitions(path):
            found[name] = found.get(name, False) or computes
    functions = {n for n in found if found[n] and "-" not in n and n[0].islower()} | LIBRARY
    names = {n: respelled(n, functions) for n in found}
    names = {n: to for n, to in names.items() if n != to}
    names |= {n: n.replace("-", "_") for n in LOCAL}
    used = set()
    for path in files:
        used |= set(TOKEN.findall(open(path, encoding="utf-8").read()))
    falls = sorted((n, to) for n, to in names.items() if to in used and to not in SHARED)
    twice = sorted((a, b, names[a]) for a in names for b in names if a < b and names[a] == names[b])
    if falls or twice:
        print("these fall together:", falls, twice)
        return 1
    for path in files + sources + pages:
        with open(path, encoding="utf-8") as f:
            text = f.read()
        new = re.sub(r"`[^`\n]*`", lambda m: replaced(m.group(0), names), text) if path.endswith(".md") else outside_strings(text, names)
        if new != text:
            with open(path, "w", encoding="utf-8") as f:
                f.write(new)
    for n in sorted(names):
        print(n, names[n])
    return 0


if __name__ == "__main__":
    sys.exit(main())
