#!/usr/bin/env python3
"""Brings this repository's own definitions and lemmas to today's spelling, once, after port.py.

Names in lower camel case (edgeCount) and lemmas or fields joined by dashes (table-size) become snake case (edge_count, table_size).
A lemma that would get its definition's name ends in _lem. Types, modules, functions of src/, generated goals, strings, inputs and
outputs keep theirs. Prints each name, and the names that fall together.
"""
import glob
import re
import sys
from collections import defaultdict

IDENT = re.compile(r"[\w'\-₀₁₂₃₄₅₆₇₈₉′]+")
HEAD = re.compile(r"^\s*(?:(?:abbrev|unfoldable|pub|pattern) )*([\w'\-₀₁₂₃₄₅₆₇₈₉′]+)(?: [\w'\-₀₁₂₃₄₅₆₇₈₉′]+)* :(?![:=])")
OWN = set(open("crates.txt").read().replace(":", " ").split())


def snake(name):
    name = name.replace("getD", "get_or")
    return re.sub(r"(?<=[a-z0-9])([A-Z])", lambda m: "_" + m.group(1).lower(), name).replace("-", "_")


def files():
    for pattern in ("crates/*/specs/**/*.antt", "crates/*/proofs/**/*.antt", "crates/*/src/**/*.rt"):
        yield from sorted(glob.glob(pattern, recursive=True))


def is_walk(path):
    return path.endswith("Proof.antt")


def is_ours(name):
    # A type's name at the head keeps its capital, and with it its dash.
    return name[0].islower() and (("-" in name) or re.search(r"[a-z0-9][A-Z]", name))


declared = defaultdict(set)
plain = defaultdict(set)
for path in files():
    if path.endswith(".rt") or is_walk(path):
        continue
    for line in open(path):
        m = HEAD.match(line)
        if m and not line.lstrip().startswith(("use ", "--", "let ")):
            name = m.group(1)
            (declared if is_ours(name) else plain)[name].add(path)

camel = {n for n in declared if "-" not in n}
new = {n: snake(n) for n in camel}
taken = set(new.values()) | set(plain)
for n in sorted(declared):
    if n not in new:
        s = snake(n)
        new[n] = s + "_lem" if s in taken else s
# port.py has given some lemmas the name that a definition gets here.
for n in plain:
    if n in set(new[c] for c in camel):
        new[n] = n + "_lem"
together = defaultdict(set)
for n, s in new.items():
    together[s].add(n)


def imported_elsewhere(text):
    """Names that a file imports from a library that is not the repository's."""
    out = set()
    for m in re.finditer(r"use ([\w.·+\-]+)\.\{([^}]*)\}", text):
        parts = m.group(1).split(".")
        ours = parts[0] == "Rattle" and len(parts) > 1 and parts[1] in OWN and parts[1] not in ("std", "io", "libc")
        if not ours:
            out |= {w.split(" as ")[0].strip() for w in m.group(2).split(",")}
    return out


def outside(line, path):
    """The stretches of a line in which names stand: no strings, and in a .rt file no comment."""
    if path.endswith(".rt"):
        cut = line.find("//")
        code = line if cut < 0 else line[:cut]
        rest = "" if cut < 0 else line[cut:]
        parts = re.split(r'("(?:[^"\\]|\\.)*")', code)
        return parts, rest
    return [line], ""


changed = 0
for path in files():
    text = open(path).read()
    foreign = imported_elsewhere(text)
    def one(m):
        w = m.group(0)
        if w in foreign or w not in new:
            return w
        # A module's path and a function of src/ keep their names.
        if w in plain and (path.endswith(".rt") or re.match(r"\.[A-Z]", m.string[m.end():])):
            return w
        return new[w]
    lines = []
    for line in text.split("\n"):
        parts, rest = outside(line, path)
        parts = [p if p.startswith('"') else IDENT.sub(one, p) for p in parts]
        # In comments names stand in backquotes.
        rest = re.sub(r"`[^`]*`", lambda q: IDENT.sub(one, q.group(0)), rest)
        lines.append("".join(parts) + rest)
    after = "\n".join(lines)
    if after != text:
        changed += 1
        if "--dry" not in sys.argv:
            open(path, "w").write(after)
    if "--dry" in sys.argv:
        here = set(IDENT.findall(text))
        for w in sorted(here):
            if w in new and w not in foreign and new[w] in here:
                print("meets:", path, w, "->", new[w])
for s, names in sorted(together.items()):
    if len(names) > 1:
        print("together:", s, sorted(names), [sorted(declared[n]) for n in sorted(names)])
if "--names" in sys.argv:
    for n in sorted(new):
        print("name:", n, "->", new[n])
print("names:", len(new), "files:", changed)
