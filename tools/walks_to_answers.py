#!/usr/bin/env python3
"""Turns proofs by tie.close (proofs/F/Proof.antt) into Invariants.antt and Answers.antt.

usage: walks_to_answers.py CRATE_FOLDER NAMES [FUNCTION..]

NAMES is the names.json that `rt check --generated DIR --old-names` writes in the crate's folder. What it can't turn it leaves in the
file behind `-- by hand:`. It proves nothing: `rt check` decides.
"""
import json
import os
import re
import sys

W = r"[\w'\-₀₁₂₃₄₅₆₇₈₉]+"
crate, names_path = sys.argv[1:3]
only = sys.argv[3:]
names = json.load(open(names_path))
krate = os.path.basename(os.path.realpath(crate))
flat = lambda s: re.sub(r"[-_]", "", s)


def project(fields, digits):
    """What a projection of a tuple of clauses is, where each clause has a name."""
    if not fields:
        return [], digits
    if len(fields) == 1:
        return [fields[0]], digits
    digits = list(digits)
    i = 0
    while i < len(fields) - 1:
        if not digits:
            return None, []
        d = digits.pop(0)
        if d == "0":
            return [fields[i]], digits
        i += 1
    return [fields[-1]], digits


class Function:
    def __init__(self, of):
        self.of = of
        self.steps, self.callees, self.fields, self.arms = {}, {}, {}, {}
        for i, place in enumerate(of["places"]):
            old, new = place[2]
            if not old:
                continue
            self.steps.setdefault(flat(old), new)
            if place[3]:
                self.callees[flat(old)] = of["params"].get(place[3])
            clause = of["clauses"][i] if i < len(of["clauses"]) else None
            if clause:
                self.fields[flat(old)] = clause["fields"]
        for arm in of["arms"]:
            if not arm:
                continue
            for field, step, path in arm[2]:
                self.arms.setdefault((flat(step), tuple(path)), (arm[0], field))
        self.pre = (of["pre"] or {}).get("fields")
        self.needs = {flat(a): b for a, b in of["needs"]}
        self.asked = {flat(a): f for a, f in of["asked"].items()}

    def chain(self, parts):
        """A chain of fields of c, without c, in the new names."""
        if not parts:
            return []
        head, rest = parts[0], parts[1:]
        key = flat(head)
        if head == "requires":
            digits = []
            while rest and rest[0].isdigit():
                digits.append(rest[0])
                rest = rest[1:]
            named, digits = project(self.pre, digits)
            if named is None:
                return ["requires", "BY-HAND"]
            return ["requires"] + named + digits + rest
        if head in ("args", "lifetimes", "ranges", "type_inv"):
            return parts
        for k in range(len(rest), -1, -1):
            hit = self.arms.get((key, tuple(rest[:k])))
            if hit and rest[:k]:
                return list(hit) + rest[k:]
        if key not in self.steps:
            return parts
        new = self.steps[key]
        if rest and key.startswith("if"):
            rest = [{"taken": "true", "left": "false"}.get(rest[0], rest[0])] + rest[1:]
        if rest[:1] == ["ensures"]:
            rest = rest[1:]
            digits = []
            while rest and rest[0].isdigit():
                digits.append(rest[0])
                rest = rest[1:]
            named, digits = project(self.fields.get(key), digits)
            if named is None:
                return [new, "ensures", "BY-HAND"]
            return [new, "ensures"] + named + digits + rest
        if rest[:1] == ["auto"] and self.callees.get(key):
            digits = rest[1:]
            n = 0
            while digits and digits[0] == "1":
                n += 1
                digits = digits[1:]
            if digits and digits[0] == "0":
                digits = digits[1:]
            if n < len(self.callees[key]):
                return [new, "auto", self.callees[key][n]] + digits
        return [new] + rest

    def body(self, text):
        text = re.sub(r"\bλ c κs\.", "λ c.", text)
        alias = {"c": []}
        # Places: let at-x = c.before.before in
        while True:
            for m in re.finditer(r"let (" + W + r") = (" + W + r")((?:\." + W + r")*) in\s*", text):
                name, base, path = m.group(1), m.group(2), [p for p in m.group(3).split(".") if p]
                if base in alias and alias[base] == [] and all(p == "before" for p in path):
                    rest = text[m.end():]
                    rest = re.sub(r"(?<![\w'\-.])" + re.escape(name) + r"(?![\w'\-₀])", "c", rest)
                    text = text[: m.start()] + rest
                    break
                if base in alias and path and [p for p in path if p != "before"] in (["requires"],) :
                    rest = text[m.end():]
                    rest = re.sub(r"(?<![\w'\-.])" + re.escape(name) + r"(?![\w'\-₀])", "c.requires", rest)
                    text = text[: m.start()] + rest
                    break
                if base == "c" and path and path[-1] == "ensures":
                    rest = text[m.end():]
                    rest = re.sub(r"(?<![\w'\-.])" + re.escape(name) + r"(?![\w'\-₀])", "c." + ".".join(path), rest)
                    text = text[: m.start()] + rest
                    break
            else:
                break
        text = re.sub(r"(?<![\w'\-.])c(?:\.before)+", "c", text)
        # Steps under another name: let l = c.loop in
        steps = {}
        for m in re.finditer(r"let (" + W + r") = c\.(" + W + r") in", text):
            if flat(m.group(2)) in self.steps:
                steps[m.group(1)] = m.group(2)

        def one(m):
            base, parts = m.group(1), m.group(2).split(".")[1:]
            parts = [p for p in parts if p != "before"]
            if base == "c":
                return ".".join(["c"] + self.chain(parts))
            if base in steps:
                return ".".join([base] + self.chain([steps[base]] + parts)[1:])
            return m.group(0)

        return re.sub(r"(?<![\w'\-.])(" + W + r")((?:\." + W + r")+)", one, text)

    def answer(self, old, text):
        """The answer's body, as a record where the goal asks for one."""
        fields = self.asked.get(flat(old))
        text = self.body(text)
        if not fields:
            return text
        head, tail = split_lets(text)
        tail = tail.strip()
        if tail.startswith("search") or tail.startswith("record"):
            return text
        if len(fields) == 1:
            return head + "record { " + fields[0] + " = " + tail + " }"
        parts, rest = [], tail
        for i in range(len(fields) - 1):
            pair = split_pair(rest)
            if not pair:
                break
            if len(pair) > 2 and i + len(pair) == len(fields):
                parts += pair[:-1]
                rest = pair[-1]
                break
            parts.append(pair[0])
            rest = "(" + ", ".join(pair[1:]) + ")" if len(pair) > 2 else pair[1]
        parts.append(rest)
        if len(parts) == len(fields):
            return head + "record { " + "; ".join(f"{f} = {p.strip()}" for f, p in zip(fields, parts)) + " }"
        path, out = "all_parts", []
        for i, f in enumerate(fields):
            out.append(f + " = " + path + (".0" if i < len(fields) - 1 else ""))
            path += ".1"
        return head + "let all_parts = " + tail + " in record { " + "; ".join(out) + " }"


def split_lets(text):
    """A body's lets, and what stands behind them."""
    depth, i, last = 0, 0, 0
    lets = 0
    t = text
    while i < len(t):
        c = t[i]
        if c in "([{":
            depth += 1
        elif c in ")]}":
            depth -= 1
        elif depth == 0 and re.match(r"let\b", t[i:]) and (i == 0 or not re.match(r"[\w\-']", t[i - 1])):
            lets += 1
        elif depth == 0 and re.match(r"in\b", t[i:]) and i and not re.match(r"[\w\-'.]", t[i - 1]) and lets and re.match(r"in(\s|\()", t[i:]):
            lets -= 1
            if lets == 0:
                last = i + 2
        elif depth == 0 and t[i] == "λ" and lets == 0:
            break
        i += 1
    return text[:last] + (" " if last else ""), text[last:]


def split_pair(text):
    t = text.strip()
    if not (t.startswith("(") and t.endswith(")")):
        return None
    depth, out, start = 0, [], 1
    for i, c in enumerate(t):
        if c in "([{":
            depth += 1
        elif c in ")]}":
            depth -= 1
            if depth == 0 and i != len(t) - 1:
                return None
        elif c == "," and depth == 1:
            out.append(t[start:i])
            start = i + 1
    out.append(t[start:-1])
    out = [p for p in out if p.strip()]
    return [p.strip() for p in out] if len(out) > 1 else None


def split_args(text):
    """The arguments of tie.spec."""
    out, i = [], 0
    while i < len(text):
        if text[i].isspace():
            i += 1
            continue
        if text[i] == "(":
            depth, j = 0, i
            while True:
                depth += {"(": 1, ")": -1}.get(text[j], 0)
                j += 1
                if depth == 0:
                    break
            out.append(text[i:j])
            i = j
        else:
            j = i
            while j < len(text) and not text[j].isspace():
                j += 1
            out.append(text[i:j])
            i = j
    return out


def turn(path, module, f):
    text = open(path).read()
    base = os.path.dirname(path)
    head = re.match(r"(?:--[^\n]*\n)*", text).group(0)
    rest = text[len(head):]
    uses = [l for l in rest.split("\n") if l.startswith("use ") and not re.search(r"\.Statement\.\{|\.Tie as tie|\.Tie\.\{", l)]
    rest = "\n".join(l for l in rest.split("\n") if not l.startswith("use "))
    blocks = [b.strip("\n") for b in re.split(r"\n\s*\n", rest) if b.strip()]
    inv, ans, own, hand, spec = [], [], [], [], None
    goals_of = {}
    loops = {flat(o): (n, live) for (o, n), live in f.of["loops"]}
    order = [flat(o) for (o, n), live in f.of["loops"]]
    for b in blocks:
        comments = "".join(l + "\n" for l in b.split("\n") if l.startswith("--"))
        b = "\n".join(l for l in b.split("\n") if not l.startswith("--"))
        if not b:
            continue
        if "tie.close" in b or "tie.spec" in b:
            spec = b
            continue
        m = re.match(r"abbrev (?:pub )?(invariant|decreases)-(" + W + r") : tie\.\S+\n(?:unfolding [^\n]*\n)?\1-\2 ?([^=]*?) ?=\s*(.*)$", b, re.S)
        if m:
            kind, loop, params, body = m.groups()
            new, live = loops[flat(loop)]
            changed = f.of["changed"][order.index(flat(loop))]
            params = params.split()
            to = [("l.initial." if ch else "l.") + v for v, ch in zip(live, changed)] + ["l." + v for v, ch in zip(live, changed) if ch]
            if len(to) != len(params):
                hand.append(b)
                continue
            table = {p: t for p, t in zip(params, to) if p != "_"}
            body = re.sub(r"(?<![\w'\-.])(" + W + r")", lambda q: table.get(q.group(1), q.group(1)), body)
            inv.append(f"{comments}abbrev pub {kind}-{new} : goal.{kind}-{new}\n{kind}-{new} l = {body}")
            continue
        m = re.match(r"(" + W + r") : tie\.Need-(" + W + r")[^\n]*\n((?:unfolding [^\n]*\n)?)\1 c(?: κs)? =\s*(.*)$", b, re.S)
        if m:
            name, need, unfolding, body = m.groups()
            need = next((n for n in (need, re.sub(r"^(overflow|nonzero|offset|slice)[-_]", "", need)) if flat(n) in f.needs), need)
            new = f.needs.get(flat(need))
            if not new:
                hand.append(b)
                continue
            goals_of[name] = flat(need)
            ans.append((new, f"{comments}pub {new} : goal.{new}\n{unfolding}{new} c = {f.answer(need, body)}"))
            continue
        own.append(comments + b)
    if spec:
        m = re.search(r"tie\.spec\b(.*)\)\s*$", spec, re.S)
        args = split_args(m.group(1)) if m else []
        args = [a for a in args if not re.match(r"(invariant|decreases)-", a)]
        order_needs = [flat(a) for a, b in f.of["needs"]]
        where = {i: order_needs.index(goals_of[a]) for i, a in enumerate(args) if a in goals_of}
        # Between two goals that are named, as many arguments as goals stand in their order.
        anchors = [(-1, -1)] + sorted(where.items()) + [(len(args), len(order_needs))]
        for (a0, n0), (a1, n1) in zip(anchors, anchors[1:]):
            for i in range(a0 + 1, a1):
                arg = args[i].strip()
                q = re.match(r"\(λ c(?: κs)?\. (.*)\)$", arg, re.S)
                body = q.group(1) if q else arg
                if body.strip() == "search rules":
                    continue
                if a1 - a0 == n1 - n0 or i - a0 == 1 and n1 - n0 > 1:
                    k = n0 + (i - a0)
                    new = f.of["needs"][k][1]
                    ans.append((new, f"pub {new} : goal.{new}\n{new} c = {f.answer(f.of['needs'][k][0], body)}"))
                elif a1 - i == 1 and n1 - n0 > 1:
                    k = n1 - 1
                    new = f.of["needs"][k][1]
                    ans.append((new, f"pub {new} : goal.{new}\n{new} c = {f.answer(f.of['needs'][k][0], body)}"))
                else:
                    hand.append(f"one of {[b for a, b in f.of['needs'][n0 + 1:n1]]}, place {i - a0} of {a1 - a0 - 1}: {f.body(body)}")
    elif blocks:
        hand.append("no tie.spec")
    at = f"Rattle.{krate}.proofs.{module}"
    ordered = [b for a, b in f.of["needs"]]
    ans.sort(key=lambda p: ordered.index(p[0]) if p[0] in ordered else 999)
    own_inv = own if inv else []
    own_names = [re.match(r"(?:--[^\n]*\n)*(?:(?:abbrev|pub|unfoldable) )*(" + W + ")", b).group(1) for b in own]
    if inv:
        out = head + "\n".join(uses) + f"\nuse {at}.Given as goal\n\n"
        out += "\n\n".join([re.sub(r"(?m)^(abbrev |unfoldable )?(?!pub|abbrev|unfoldable)(" + W + r" :)", r"\1pub \2", b, count=1) for b in own_inv] + inv) + "\n"
        open(os.path.join(base, "Invariants.antt"), "w").write(out)
    if ans or hand or (own and not inv):
        out = (head if not inv else "") + "\n".join(uses) + f"\nuse {at}.Goals as goal\n"
        if inv and own:
            out += f"use {at}.Invariants.{{{', '.join(own_names)}}}\n"
        out += "\n" + "\n\n".join(([] if inv else own) + [t for _, t in ans]) + "\n"
        for h in hand:
            out += "\n" + "\n".join("-- by hand: " + l for l in h.split("\n")) + "\n"
        open(os.path.join(base, "Answers.antt"), "w").write(out)
    os.remove(path)
    print(module, "answers:", len(ans), "by hand:", len(hand))


for root, dirs, fs in sorted(os.walk(os.path.join(crate, "proofs"))):
    if "Proof.antt" not in fs:
        continue
    module = os.path.relpath(root, os.path.join(crate, "proofs")).replace("/", ".")
    if only and module not in only:
        continue
    text = open(os.path.join(root, "Proof.antt")).read()
    key = f"Rattle-{krate}-proofs.{module}.Lts"
    if "tie.close" not in text or key not in names:
        print(module, "left:", "no tie.close" if "tie.close" not in text else "no names")
        continue
    turn(os.path.join(root, "Proof.antt"), module, Function(names[key]))
