"""An edit: a small wrong change of a crate's text, read from its file, and what the crate's files are with it.

An edit has `file:`, `old:` and `new:` lines, where each old text stands once in its file of src/ or specs/. Where the toolchain names a step of a walk by the
text that the edit changes, lines of a file of proofs/ give the step its new name, and change nothing else.
"""
import re
from dataclasses import dataclass
from functools import cached_property
from pathlib import Path

import bodies

# The name of a place, of a goal, of a step or of a test's outcome in a walk.
STEP = re.compile(r"(Need|Then|Else|Joined|After)-[\w-]+|if-[\w-]+|(true|false)(-raw)?")


class BadEdit(Exception):
    """An edit that cannot be applied."""


def pairs_of(file):
    """The replacements of an edit's file: file of the crate, old text, new text."""
    path, old, pairs = None, None, []
    for line in file.read_text().splitlines():
        word, _, rest = line.partition(": ")
        if word == "file":
            path = rest
        elif word == "old":
            old = rest
        elif line.startswith("new:"):
            pairs.append((path, old, line[len("new:"):].removeprefix(" ")))
    if not pairs:
        raise BadEdit("it has no `old:` and `new:` pair")
    return pairs


def renames(old, new):
    """Whether two texts of a walk differ in names of steps alone."""
    a, b = (re.split(r"([\w-]+)", text) for text in (old, new))
    changed = [(x, y) for x, y in zip(a, b) if x != y]
    return len(a) == len(b) and all(STEP.fullmatch(x) and STEP.fullmatch(y) for x, y in changed)


def texts_of(file, crate):
    """The files of a crate that an edit's file changes, each with its text before and after."""
    before, after = {}, {}
    for path, old, new in pairs_of(file):
        if not re.match(r"(src|specs|proofs)/", path or "") or not (crate / path).is_file():
            raise BadEdit(f"`{path}` is no file of the crate's src, specs or proofs")
        if path.startswith("proofs/") and not renames(old, new):
            raise BadEdit(f"it changes more of {path} than names of steps")
        before.setdefault(path, (crate / path).read_text())
        text = after.get(path, before[path])
        if not old or text.count(old) != 1:
            raise BadEdit(f"`{old}` does not stand in {path} once")
        after[path] = text.replace(old, new)
    if before == after:
        raise BadEdit("it changes nothing")
    return {path: (before[path], after[path]) for path in before}


@dataclass(eq=False)
class Edit:
    """An edit's file, the folder of its crate, and the files of the crate that it changes, each with its text before and after."""
    file: Path
    crate: Path
    texts: dict

    @property
    def name(self):
        return self.file.stem

    @cached_property
    def lines(self):
        """The lines that it changes: file and number, with the new line. A replacement is of one line by one line."""
        return {
            (file, number): new
            for file, (before, after) in self.texts.items()
            for number, (old, new) in enumerate(zip(before.split("\n"), after.split("\n")))
            if old != new
        }

    @cached_property
    def function(self):
        """The name of the function in whose body all that it changes stands, if there is one."""
        found = {
            file.startswith("src/") and bodies.function_at(self.texts[file][0].split("\n"), number) for file, number in self.lines
        }
        return found.pop() or None if len(found) == 1 else None


def apply(edits):
    """Writes the files of a crate with some edits, which change different lines."""
    changed = {}
    for edit in edits:
        for (file, number), line in edit.lines.items():
            lines = changed.setdefault(edit.crate / file, edit.texts[file][0].split("\n"))
            lines[number] = line
    for path, lines in changed.items():
        path.write_text("\n".join(lines))


def take_back(edits):
    """Writes the files that some edits changed as they were."""
    for edit in edits:
        for file, (before, _) in edit.texts.items():
            (edit.crate / file).write_text(before)
