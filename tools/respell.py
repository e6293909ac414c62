#!/usr/bin/env python3
"""Brings the repository's own definitions and lemmas to the spelling of today's Rattle: words in snake case.

usage: python3 tools/respell.py     at the top of the repository, once, right after port.py

A name that specs/ or proofs/*.antt declare with a dash, or in camel case, and that no library has, gets underscores, wherever it
stands as a whole name: in specs/, proofs/ and the clauses of src/. Names that Rattle makes from the source (goals, steps) stay.
Where two of them would fall together nothing is written. A name that some variable or other crate has too is printed ('look:').
"""
import glob
import os
import re
import sys

DECLARED = re.compile(r"^\s*(?:pub |abbrev |unfoldable |record |data |let )*([a-z][\w'-]*)(?: \([^)]*\)| \{[^}]*\})* : (.*)")
WORD = re.compile(r"[^\s(){}\[\].,;:`\"|]+")
# names whose underscored form is taken: by a ghost field, by a function of src/, by a lemma of the library
OTHER = {"on-grid": "is_on_grid", "bytes-from": "bytes_starting_at", "sumBy-more": "sum_by_added"}


def antt(*where):
    return sorted(f for w in where for f in glob.glob(f"crates/*/{w}/**/*.antt", recursive=True) if "/out/" not in f)


def snake(name):
    return OTHER.get(name) or re.sub(r"(?<=[a-z])([A-Z])", lambda m: "_" + m.group(1).lower(), name).replace("-", "_")


def declared():
    names = {}
    for path in antt("specs", "proofs"):
        for line in open(path, encoding="utf-8"):
            m = DECLARED.match(line)
            if m and not line.lstrip().startswith("--") and not m.group(2).startswith(("goal.", "need.")) and snake(m.group(1)) != m.group(1):
                names.setdefault(m.group(1), set()).add(path)
    return names


def library_imports():
    """Names that some file of the repository takes from the library."""
    taken = set()
    for path in antt("specs", "proofs") + glob.glob("crates/*/src/**/*.rt", recursive=True):
        for m in re.finditer(r"use (?:Rattle\.std|borrow|Prim|denote)\.[^{;\n]*\{([^}]*)\}", open(path, encoding="utf-8").read()):
            taken |= {w.strip() for w in m.group(1).split(",")}
    return taken


def turned(text, names, clauses_only):
    out = []
    for line in text.split("\n"):
        if clauses_only and line.lstrip().startswith("//"):
            out.append(line)
            continue
        out.append(WORD.sub(lambda m: names.get(m.group(0), m.group(0)), line))
    return "\n".join(out)


def main():
    mine, taken = declared(), library_imports()
    names = {n: snake(n) for n in mine if n not in taken}
    kept = sorted(n for n in mine if n in taken)
    sources = glob.glob("crates/*/src/**/*.rt", recursive=True)
    everything = {}
    for path in antt("specs", "proofs") + sources:
        everything[path] = open(path, encoding="utf-8").read()
    words = {}
    for path, text in everything.items():
        for w in WORD.findall(text):
            words.setdefault(w, set()).add(path)
    clash = sorted((n, s) for n, s in names.items() if s in words)
    twice = sorted(s for s in set(names.values()) if sum(1 for t in names.values() if t == s) > 1)
    for n, s in clash:
        print(f"look: {n} would be {s}, which stands in {', '.join(sorted(words[s])[:3])}; {n} is declared in {', '.join(sorted(mine[n])[:2])}")
    for s in twice:
        print(f"stop: two names would be {s}: {[n for n in names if names[n] == s]}")
    for n in kept:
        print(f"kept: {n}, a name that is also taken from the library: {sorted(mine[n])[:2]}")
    if twice:
        return 1
    for path, text in everything.items():
        new = turned(text, names, path.endswith(".rt"))
        if new != text:
            with open(path, "w", encoding="utf-8") as f:
                f.write(new)
    print(f"{len(names)} names respelled")
    return 0


if __name__ == "__main__":
    os.chdir(os.path.join(os.path.dirname(os.path.realpath(__file__)), ".."))
    sys.exit(main())
