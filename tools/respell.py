#!/usr/bin/env python3
"""Spells the repository's own antt names in snake case: `fieldsAfter` becomes `fields_after`.

usage: python3 tools/respell.py            at the top, once, after the toolchain's own script that turns a repository to today's spelling

It turns each name that begins with a small letter and has a capital behind one, in .antt and .rt files, in must-fail edits, and in code spans
of the documents. A lemma that has the snake case of a definition's name already gets the ending `_lem`. Functions, exported names, strings,
inputs and outputs have no such names, and a type keeps its own.
"""
import os
import re

CAMEL = re.compile(r"(?<![A-Za-z0-9_'])[a-z][a-z0-9_]*[A-Z][A-Za-z0-9_']*")
KEEP = {"x500FFFE"}
# a parameter of src/ is called root_wanted
OTHER = {"getD": "get_or", "rootWanted": "root_is_wanted"}
DECLARED = re.compile(r"(?m)^\s*(?:(?:pub|abbrev|unfoldable) )*([a-z][A-Za-z0-9_'-]*)(?: \{[^{}\n]*\})* :(?!:)")
STRING = re.compile(r'"(?:[^"\\\n]|\\.)*"')
SPAN = re.compile(r"(`+)(?:[^\n`]|\n(?!\s*\n))*?\1")


def snake(word):
    if word in KEEP:
        return word
    if word in OTHER:
        return OTHER[word]
    word = re.sub(r"(?<=[a-z0-9])([A-Z])", lambda m: "_" + m[1].lower(), word)
    return word.lower()


def files(*tops):
    for top in tops:
        for folder, dirs, names in os.walk(top):
            dirs[:] = sorted(d for d in dirs if d not in ("out", "target", ".git"))
            for name in sorted(names):
                yield os.path.join(folder, name)


def read(path):
    with open(path, encoding="utf-8") as f:
        return f.read()


def outside_strings(text, turn):
    out, at = [], 0
    for m in STRING.finditer(text):
        out += [turn(text[at : m.start()]), m[0]]
        at = m.end()
    return "".join(out + [turn(text[at:])])


def main():
    code = [p for p in files("crates") if p.endswith((".antt", ".rt"))]
    edits = [p for p in files("crates", "tests/edits") if p.endswith(".edit")]
    pages = [p for p in files("docs") if p.endswith(".md") and "LANDINGS" not in p] + ["README.md", "CONTRIBUTING.md", "oracle/README.md", "vectors/README.md"]
    declared = set()
    for p in code:
        if p.endswith(".antt"):
            declared |= set(DECLARED.findall(read(p)))
    # a field may have a definition's name
    taken = sorted((declared & {snake(w) for w in declared if CAMEL.fullmatch(w)}) - {"laid_out"})
    print("lemmas with the name of a definition:", ", ".join(taken))
    behind = re.compile(r"(?<![\w.'-])(" + "|".join(taken) + r")(?![\w'.-])") if taken else None

    def names(text):
        return CAMEL.sub(lambda m: snake(m[0]), text)

    for p in code + edits:
        text = old = read(p)
        if p.endswith(".antt") and behind:
            # not in comments, and not where a line of imports names a module of a function
            # a place in a placement's table of alloc keys is a variable of that name, and no lemma
            # a name that the file takes from a library stays
            lent = {n for l in re.findall(r"(?m)^use (?!Rattle)\S+\.\{([^}]*)\}", text) for n in l.split(", ")}
            ending = lambda m: m[1] if m[1] in lent else "allocs_at" if m[1] == "alloc_at" and "/place" in p else m[1] + "_lem"
            text = "\n".join(l if l.lstrip().startswith("--") else behind.sub(ending, l) for l in text.split("\n"))
        text = outside_strings(text, names) if p.endswith(".rt") else names(text)
        if text != old:
            with open(p, "w", encoding="utf-8") as f:
                f.write(text)
    for p in pages:
        if not os.path.exists(p):
            continue
        old = read(p)
        text = SPAN.sub(lambda m: names(m[0]), old)
        if text != old:
            with open(p, "w", encoding="utf-8") as f:
                f.write(text)


if __name__ == "__main__":
    main()
