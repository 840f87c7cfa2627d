#!/usr/bin/env python3
"""Brings the texts of must-fail edits to today's spelling, once: those whose old text no longer stands once in its file.

Prints the edits that are still to be brought over by hand.
"""
import glob
import os
import re

IDENT = re.compile(r"[\w'\-₀₁₂₃₄₅₆₇₈₉′]+")


def snake(word):
    if not word[0].islower() or not ("-" in word or re.search(r"[a-z0-9][A-Z]", word)):
        return word
    word = word.replace("getD", "get_or")
    return re.sub(r"(?<=[a-z0-9])([A-Z])", lambda m: "_" + m.group(1).lower(), word).replace("-", "_")


def turned(text, path):
    if path.endswith(".antt"):
        text = IDENT.sub(lambda m: snake(m.group(0)), text).replace("′", "'")
        text = re.sub(r"(?<=[\w)'₀]) \.(?=[a-z0-9_]+)", ".", text)
    return text


for edit in sorted(glob.glob("crates/*/must-fail/*.edit")):
    crate = edit.split("/must-fail/")[0]
    lines = open(edit).read().split("\n")
    path, out, good = None, [], True
    texts = {}
    for line in lines:
        if line.startswith("file: "):
            path = line[6:].strip()
        if path and path not in texts:
            p = os.path.join(crate, path)
            texts[path] = open(p).read() if os.path.exists(p) else ""
        if line.startswith("old: "):
            old = line[5:]
            if texts[path].count(old) != 1 and texts[path].count(turned(old, path)) == 1:
                line = "old: " + turned(old, path)
            good &= texts[path].count(line[5:]) == 1
            last = line[5:]
        elif line.startswith("new: ") or line == "new:":
            new = turned(line[5:], path) if path.endswith(".antt") else line[5:]
            line = ("new: " + new) if line != "new:" else line
            texts[path] = texts[path].replace(last, new, 1)
        out.append(line)
    if not good:
        print("by hand:", edit)
        for l in lines:
            print("    ", l)
    elif out != lines:
        open(edit, "w").write("\n".join(out))
        print("turned:", edit)
