#!/usr/bin/env python3
"""Brings the names of definitions and lemmas in README.md, docs/, bench/ and tests/ to today's spelling, once, and prints what is unknown."""
import glob
import re

IDENT = re.compile(r"[\w'\-₀₁₂₃₄₅₆₇₈₉′]+")
HEAD = re.compile(r"^\s*(?:(?:abbrev|unfoldable|pub|pattern) )*([\w'\-₀₁₂₃₄₅₆₇₈₉′]+)(?: [\w'\-₀₁₂₃₄₅₆₇₈₉′]+)* :(?![:=])")
known = set()
for path in glob.glob("crates/*/specs/**/*.antt", recursive=True) + glob.glob("crates/*/proofs/**/*.antt", recursive=True):
    for line in open(path):
        m = HEAD.match(line)
        if m:
            known.add(m.group(1))
edits = {p.split("/")[-1][:-5] for p in glob.glob("crates/*/must-fail/*.edit")}


def snake(word):
    word = word.replace("getD", "get_or")
    return re.sub(r"(?<=[a-z0-9])([A-Z])", lambda m: "_" + m.group(1).lower(), word).replace("-", "_").replace("′", "'")


def one(word):
    if word in known or not word[:1].islower():
        return word
    if "-" not in word and not re.search(r"[a-z0-9][A-Z]", word):
        return word
    s = snake(word)
    if "-" in word and s + "_lem" in known:
        return s + "_lem"
    return s if s in known else word


pages = ["README.md", "bench/README.md", "tests/oracle/README.md"] + glob.glob("docs/*.md") + glob.glob("docs/changes/*.md")
for page in pages:
    if page == "docs/PORT.md":
        continue
    text = open(page).read()
    out = re.sub(r"`[^`\n]*`", lambda q: IDENT.sub(lambda m: one(m.group(0)), q.group(0)), text)
    for q in re.findall(r"`([^`\n]*)`", out):
        for w in IDENT.findall(q):
            if w[:1].islower() and w not in known and w not in edits and ("-" in w or re.search(r"[a-z0-9][A-Z]", w)):
                print("unknown:", page, w, "in", q[:60])
    if out != text:
        open(page, "w").write(out)
        print("turned:", page)
