#!/usr/bin/env python3
"""Lists the places of src/ that have the shape of an older form: python3 tools/places.py [FOLDER [POINT]].

Every line that matches is a hit; docs/DESIGN-PASS.md says which of them are places, and what became of them.
Blocks under #[cfg(test)] and files called tests.rt are left out, but for point 3, where they are counted by themselves.
"""
import collections
import glob
import os
import re
import sys


def sources(root, tests):
    for path in sorted(glob.glob(os.path.join(root, "crates/*/src/**/*.rt"), recursive=True)):
        if path.endswith("/roots.rt"):
            continue  # the table
        text = open(path, encoding="utf8").read()
        cut = text.find("#[cfg(test)]\nmod tests {")
        in_tests = path.endswith("/tests.rt")
        if tests:
            body = text if in_tests else (text[cut:] if cut >= 0 else "")
            first = 0 if in_tests or cut < 0 else text[:cut].count("\n")
        else:
            body = "" if in_tests else (text[:cut] if cut >= 0 else text)
            first = 0
        yield os.path.relpath(path, os.path.join(root, "crates")), first, body


def hits(root, pattern, tests=False):
    rule = re.compile(pattern, re.M)
    for path, first, body in sources(root, tests):
        for found in rule.finditer(body):
            start = body.rfind("\n", 0, found.start() + 1) + 1 if body[found.start()] != "\n" else found.start() + 1
            line = body.count("\n", 0, start) + 1 + first
            yield f"{path}:{line}: {' '.join(found.group(0).split())[:110]}"


def functions(root):
    """name, parameters and clauses of each function"""
    rule = re.compile(r"^( *)(?:pub(?:\(crate\))? )?fn (\w+)(?:<[^(]*>)?\(", re.M)
    for path, _, body in sources(root, False):
        for found in rule.finditer(body):
            begin = re.compile(r"\{$|;$", re.M).search(body, found.end())  # of the body, or the end of a declaration
            head = body[found.end() : begin.start() if begin else len(body)]
            depth, at = 1, 0
            while depth and at < len(head):
                depth += {"(": 1, ")": -1}.get(head[at], 0)
                at += 1
            names = [p.split(":")[0].strip() for p in re.split(r",(?![^<\[(]*[>\])])", head[: at - 1]) if ":" in p]
            names = [re.sub(r"^mut ", "", n) for n in names]
            clauses = re.findall(r"(?:requires|ensures)\*?(?: \w+)? \{ (.*) \}$", head[at:], re.M)
            yield f"{path}: {found.group(2)}", names, clauses


def repeated(root):
    shared = collections.defaultdict(set)
    said = collections.defaultdict(set)
    for name, params, clauses in functions(root):
        for i, a in enumerate(params):
            for b in params[i + 1 :]:
                shared[tuple(sorted((a, b)))].add(name)
        for clause in clauses:
            plain = re.sub(r"\.(now|old|new|entry)\b", "", clause)
            said[plain].add(name)
    for pair, names in sorted(shared.items(), key=lambda x: (-len(x[1]), x[0])):
        if len(names) >= 3:
            yield f"parameters {' and '.join(pair)}: {len(names)} functions: {', '.join(sorted(names))}"
    for clause, names in sorted(said.items(), key=lambda x: (-len(x[1]), x[0])):
        if len(names) >= 3:
            yield f"clause {{ {clause} }}: {len(names)} functions: {', '.join(sorted(names))}"


def twins(root):
    """bodies of functions that are the same up to names, numbers and constants"""
    rule = re.compile(r"^( *)(?:pub(?:\(crate\))? )?fn (\w+).*?\n\1\{\n(.*?)\n\1\}|^( *)fn (\w+)[^\n]*\{\n(.*?)\n\4\}", re.M | re.S)
    shapes = collections.defaultdict(list)
    for path, _, body in sources(root, False):
        for found in rule.finditer(body):
            name, code = found.group(2) or found.group(5), found.group(3) or found.group(6)
            shape = re.sub(r"\s+", " ", re.sub(r"\b\w+\b", "x", code)).strip()
            if len(shape) > 3 and shape not in ("x", "x.x", "&x.x", "&x.x.x"):
                shapes[shape].append(f"{path}: {name}")
    for shape, names in sorted(shapes.items(), key=lambda x: -len(x[1])):
        if len(names) >= 2:
            yield f"{len(names)} bodies of the shape `{shape[:70]}`: {', '.join(names)}"


POINTS = {
    "1": [
        ("enums", r"^ *(?:pub(?:\(crate\))? )?enum \w+"),
        ("numbers of kinds, refusals and codes", r"(?:self|kind|refusal|check)(?:\.\w+)* as u8\b|-> u8$|-> \(u8|= \d+,$"),
        ("an Option or Result taken apart and handed on", r"let Some\(.*\) = [^;]*? else \{\s*return (?:Err\(.*\)|None);|is_none\(\) \{\s*return Err|Err\(\w+\) => (?:Err|\w+::\w+)\(.*"),
        ("an answer given as a length or a mark", r"^ *(?:return )?\w+\.len\(\)\n *\}"),
    ],
    "2": [("functions of one shape", twins)],
    "3": [
        ("loops over numbers", r"^ *(?:'\w+: )?for \w+ in [^{]*\.\.[^{]*\{"),
        ("while and loop", r"^ *(?:while [^{]*|loop )\{"),
        ("counted by hand", r"^ *\w+ \+= (?:1|u16::from\(.*\));"),
    ],
    "4": [
        ("conversions by number", r"^.*(?:% 256|/ 256|% 65536|/ 65536|256 \*|65_536 \*).*$"),
        ("functions that convert, order or print", r"^ *(?:pub(?:\(crate\))? )?fn (?:number|kind|before|before\w*|cmp|eq|fmt|from\w*|to_\w+|as_\w+|u16_at|u32_at|put_\w+)\b.*"),
        ("casts to a smaller or larger number", r"^.*\w\)? as (?:u8|u16|u32|usize|char)\b.*$"),
    ],
    "5": [("parameters and clauses of three functions or more", repeated)],
    "6": [
        ("a length beside", r"^ *(?:pub )?(?:len|held|front|at): (?:usize|u16),?$|\b(?:len|at): usize\b"),
        ("arrays of a fixed size in types and locals", r"\[[^\[\]\n]*; (?:SLOTS|MAX_NODES)\]"),
        ("a part of a buffer by its length", r"\[(?:0)?\.\.(?!\.)[^\]\n]+\]|\.split_at(?:_mut)?\("),
    ],
    "7": [("matches that choose what runs", r"^ *(?:\w+ = )?match (?:kind|change|letter|number|line|node\.kind)\b[^{]*\{")],
}


def main():
    root = sys.argv[1] if len(sys.argv) > 1 else "."
    only = sys.argv[2] if len(sys.argv) > 2 else None
    for point, kinds in POINTS.items():
        if only and point != only:
            continue
        for label, rule in kinds:
            found = list(rule(root) if callable(rule) else hits(root, rule))
            print(f"\npoint {point}, {label}: {len(found)}")
            for line in found:
                print("   ", line)
            if point == "3":
                found = list(hits(root, rule, tests=True))
                print(f"point {point}, {label}, in tests: {len(found)}")
                for line in found:
                    print("   ", line)


main()
