#!/usr/bin/env python3
"""Turns each proofs/F/Proof.antt of a crate to the names that today's check gives to the steps and goals of F.

usage: python3 tools/convert_walks.py CRATE NAMES COMMIT

CRATE is a crate's folder, NAMES the names.json of `rt check --generated DIR --old-names`, COMMIT the commit whose files are turned (a file that
was written anew since is left alone).
"""
import json
import os
import re
import subprocess
import sys

ID = r"[A-Za-z_₀-₉'][\w'₀-₉-]*"


def norm(s):
    return re.sub(r"[-']", "_", s.strip("«»")).lower()


def bare(s):
    # a label of before, whatever kind of overflow the spelling script put before it
    return re.sub(r"^(overflow|nonzero)_", "", re.sub(r"^slice_bounds_", "part_", norm(s)))


class Function:
    def __init__(self, v, prefix):
        self.v, self.prefix = v, prefix
        self.old = [p[0] for p in v["places"]]
        self.new = v["places_by_name"]
        index = {n: i for i, n in enumerate(self.old)}
        self.parent = [index.get(p[1]) for p in v["places"]]
        self.step = [p[2] for p in v["places"]]
        self.inner = [dict(map(tuple, p[4])) for p in v["places"]]
        self.by_old = {norm(n): i for i, n in enumerate(self.old)}
        self.args = {}
        for n, i in self.by_old.items():
            m = re.match(r"(after_.*_arg)\d*$", n)
            if m:
                self.args[m[1]] = max(i, self.args.get(m[1], 0))
        self.needs = {bare(o): n for o, n in v["needs"]}
        self.asked = {n: index[at[0]] for (o, n), at in zip(v["needs"], v["asked_at"]) if at[0] in index}
        self.loops = {norm(o): n for (o, n), _ in v["loops"]}
        self.arm = v["arms"]

    def place(self, name):
        """The place of that name before; the last argument of a call where there were more."""
        key = norm(name)
        return self.by_old.get(key, self.args.get(re.sub(r"\d+$", "", key)))

    def up(self, i, k):
        while k and self.parent[i] is not None:
            i, k = self.parent[i], k - 1
        return i

    def count(self, a, b):
        """How many `before`s lead from place a to place b today."""
        n = 0
        while a is not None and a != b:
            a, n = self.above(a), n + 1
        return n if a == b else None

    def above(self, i):
        # the last place of an arm stands right behind the place that the match is at
        if self.arm[i] and self.new[i].lower() == self.arm[i][0].lower():
            k = self.arm[i][1]
            for _ in range(k - 1):
                i = self.parent[i]
        return self.parent[i]

    def chain(self, i):
        while i is not None:
            yield i
            i = self.parent[i]

    def last_of_arm(self, i, start):
        """Where place i is one of an arm's and start lies at or behind its last place: that last place."""
        if not self.arm[i]:
            return None
        for j in self.chain(start):
            if self.arm[j] and self.arm[j][0] == self.arm[i][0] and self.new[j].lower() == self.arm[j][0].lower():
                return j
        return None

    def path(self, start, k, rest, said):
        """Today's fields for `.before` k times and then the fields of rest, from place start."""
        at = self.up(start, k)
        rest = [{"pre": "requires", "inv": "invariant", "good": "well_formed"}.get(x, x) for x in rest]
        first = norm(rest[0])
        if first.endswith("_lem") and not any(norm(s[0]) == first for s in self.step):
            first = first[:-4]
        if first in ("args", "requires", "lifetimes", "well_formed", "ranges"):
            return [first] + rest[1:]
        hit = next((i for i in self.chain(at) if norm(self.step[i][0]) == first and self.step[i][0]), None)
        if hit is None:
            hit = next((i for i in reversed(list(self.chain(start))) if norm(self.step[i][0]) == first and self.step[i][0]), None)
        if hit is None:
            said.append(f"no step {'.'.join(rest)} at {self.old[at]}")
            return rest
        j = self.last_of_arm(hit, start)
        if j is not None:
            rows = [r for r in self.arm[j][2] if norm(r[1]) == first and [norm(x) for x in rest[1 : 1 + len(r[2])]] == r[2]]
            if rows:
                row = max(rows, key=lambda r: len(r[2]))
                return [self.arm[j][0], row[0]] + rest[1 + len(row[2]) :]
        name = self.step[hit][1]
        callee = self.v["params"].get(self.v["places"][hit][3])
        if callee and rest[1:2] in (["new"], ["auto"], ["kept"]):
            ones = 0
            while rest[2 + ones : 3 + ones] == ["1"]:
                ones += 1
            if rest[2 + ones : 3 + ones] == ["0"] and ones < len(callee):
                rest = [rest[0], "new" if rest[1] == "new" else "auto", callee[ones]] + rest[3 + ones :]
        if self.arm[hit]:
            name = self.new[hit][0].lower() + self.new[hit][1:] if self.arm[hit][1] == 1 else name
        tail = [{"left": "false", "taken": "true"}.get(x, x) if i == 0 else x for i, x in enumerate(rest[1:])]
        if tail and norm(tail[0]) in self.inner[hit]:
            tail = [self.inner[hit][norm(tail[0])]] + tail[1:]
        elif tail and norm(tail[0]) == "branch":
            tail = ["branch-raw"] + tail[1:]
        return [name] + tail


def turn(text, f, path, said):
    def type_name(m):
        name = m[1]
        for head in ("Need-", "invariant-", "decreases-", "ghost-"):
            if name.startswith(head):
                table, key = (f.needs, bare(name[len(head) :])) if head == "Need-" else (f.loops, norm(name[len(head) :]))
                if key in table:
                    return f.prefix + "." + head + table[key]
                said.append(f"{path}: no {name}")
                return m[0]
        if f.place(name) is not None:
            return f.prefix + "." + f.new[f.place(name)]
        if name[0].isupper():
            said.append(f"{path}: no place {name}")
        return m[0]

    parts = re.split(rf"(?m)^(?=(?:(?:pub|abbrev) )*{ID} ?:)", text)
    helper, where = {}, []
    for part in parts:
        place = None
        sig = re.match(rf"(?:(?:pub|abbrev) )*({ID}) ?:", part)
        if sig:
            types = re.findall(rf"\b{re.escape(f.prefix)}\.([A-Za-z][\w'-]*)", part)
            if types:
                if types[0].startswith("Need-"):
                    new = f.needs.get(bare(types[0][5:]))
                    place = f.asked.get(new)
                elif f.place(types[0]) is not None:
                    place = f.place(types[0])
                    helper[sig[1]] = (place, f.place(types[1]) if len(types) > 1 and part.startswith("abbrev") else None)
        where.append(place)
    out = []
    for part, place in zip(parts, where):
        turned = re.sub(rf"\b{re.escape(f.prefix)}\.([A-Za-z][\w'-]*)", type_name, part)
        if place is not None:
            turned = body(turned, f, place, helper, path, said)
        out.append(turned)
    text = "".join(out)
    text = re.sub(r"\.(bytes|n)-1\b", r".\1", text)
    text = re.sub(r"\bargs\.([a-z_]+)-1(?![\w-])", r"args.\1", text)
    text = re.sub(r"sym \(length-map (\S+) (?:\(λ x\. x\)|_)\) ∙ (c\.well_formed)", r"\2", text)
    text = text.replace(".type-inv", ".type_inv").replace(").pre", ").requires").replace(").good", ").well_formed")
    text = re.sub(r"(?<=\w)\.pre(?![\w-])", ".requires", text)
    text = re.sub(r"(?<=[\w)])\.inv(?![\w-])", ".invariant", text)
    return re.sub(r"(?m)(?<![\w'-])([a-z][\w-]*)-spec\b", lambda m: norm(m[1]) + "_spec", text)


WORD = re.compile(rf"(?<![\w.'₀-])({ID})((?:\.[A-Za-z0-9_«][\w'»-]*)*)")


def body(part, f, place, helper, path, said):
    # (place of c as it was written, in the old chain)
    own = re.match(rf"(?:(?:pub|abbrev) )*({ID})", part)[1]
    clause = re.search(rf"(?m)^\s*{re.escape(own)} ({ID})", part[len(own) + 1 :])
    names = {clause[1] if clause else "c": (place, 0)}
    for m in re.finditer(rf"\(({ID}) : {re.escape(f.prefix)}\.([A-Z][\w'-]*)", part):
        if m[2] in f.new:
            names[m[1]] = (f.new.index(m[2]), 0)
    out, at, before = [], 0, ""
    m = re.search(r"\n(?=\S*.* = |\S* .*=\n)|\n", part)
    for m in WORD.finditer(part):
        name, rest = m[1], [r for r in m[2].split(".") if r]
        gap = part[at : m.start()]
        piece = m[0]
        line = part[part.rfind("\n", 0, m.start()) + 1 : m.start()]
        behind = part[m.end() : m.end() + 3]
        if line.lstrip().startswith("--") or re.search(r"(\blet |λ |λ \(|\{)$", part[: m.start()]):
            pass
        elif not rest and (behind.startswith(" :") or behind.startswith(" =") and "==" not in behind):
            pass
        elif name in names and rest:
            start, k0 = names[name]
            k = 0
            while k < len(rest) and rest[k] == "before":
                k += 1
            fields = rest[k:]
            if fields:
                piece = ".".join([name] + f.path(start, k0 + k, fields, said))
            else:
                let = re.search(rf"\blet ({ID}) = $", part[: m.start()])
                ends = re.match(r"\s+in\b", part[m.end() :])
                if let and ends:
                    names[let[1]] = (start, k0 + k)
                    piece = name
                elif before in helper:
                    n = f.count(start, helper[before][0])
                    piece = name + ".before" * (n if n is not None else k)
                else:
                    target = f.up(start, k0 + k)
                    if part.startswith("abbrev") and helper.get(re.match(rf"(?:(?:pub|abbrev) )*({ID})", part)[1], (0, None))[1] is not None:
                        target = helper[re.match(rf"(?:(?:pub|abbrev) )*({ID})", part)[1]][1]
                    n = f.count(start, target)
                    piece = name + ".before" * (n if n is not None else k)
        elif name in names and not rest:
            start, k0 = names[name]
            let = re.search(rf"\blet ({ID}) = $", part[: m.start()])
            if let and re.match(r"\s+in\b", part[m.end() :]):
                names[let[1]] = (start, k0)
            elif before in helper:
                n = f.count(start, helper[before][0])
                if n is not None:
                    piece = name + ".before" * n
            elif k0:
                n = f.count(start, f.up(start, k0))
                if n:
                    piece = name + ".before" * n
        if name in helper and not rest and helper[name][1] is not None:
            let = re.search(rf"\blet ({ID}) = $", part[: m.start()])
            if let:
                names[let[1]] = (helper[name][1], 0)
        out += [gap, piece]
        at = m.end()
        before = name if not rest else ""
    out.append(part[at:])
    text = "".join(out)

    # a helper's result is a place: `(start c).args`, `(turn (beside c)).loop`
    at = 0
    while helper:
        m = re.compile(r"\)\.([\w'₀-₉][\w'.-]*)").search(text, at)
        if not m:
            break
        at, deep, i = m.end(), 0, m.start()
        while i >= 0:
            deep += (text[i] == ")") - (text[i] == "(")
            if not deep:
                break
            i -= 1
        h = re.match(rf"\(({ID}) ", text[i:]) if i >= 0 else None
        if h and h[1] in helper and helper[h[1]][1] is not None:
            fields, k = m[1].split("."), 0
            while k < len(fields) and fields[k] == "before":
                k += 1
            if k == len(fields):
                continue
            new = ".".join(f.path(helper[h[1]][1], k, fields[k:], said))
            text = text[: m.start()] + ")." + new + text[m.end() :]
            at = m.start() + 2 + len(new)
    return text


def main(crate, names, commit):
    d = json.load(open(names))
    said = []
    for k, v in d.items():
        m = re.match(r"Rattle-(\w+)-proofs\.(.*)\.Lts(-\w+)?$", k)
        if not m:
            continue
        p = os.path.join(crate, "proofs", *m[2].split("."), "Proof.antt")
        if not os.path.exists(p):
            continue
        old = subprocess.run(["git", "show", f"{commit}:{p}"], capture_output=True, text=True).stdout
        if not old or "assigns !" in old:
            continue
        f = Function(v, "tie" if not m[3] else m[3][1:] + "-lts")
        mine = []
        new = turn(old, f, p, mine)
        at = re.search(r"\(\s*tie\.spec\s([^()]*)\)", new)
        if at and not m[3]:
            args = at[1].split()
            n = len(v["needs"]) + 2 * len(v["loops"])
            if len(args) != n:
                mine.append(f"{len(args)} answers where {n} are asked: {args} -- {v['needs']} settled {v['settled']}")
        said += [f"{p}: {s}" if not s.startswith(p) else s for s in mine]
        open(p, "w").write(new)
    print("\n".join(said))


main(*sys.argv[1:])
