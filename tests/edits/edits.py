#!/usr/bin/env python3
"""edits.py [NAME ..]: tries the edits of tests/edits/NAME; the prover must refuse each at a fact that no longer holds.

The crates that have edits are copied with those below them and proved there; then their edits are tried and taken back, and at the end the copy's files are
those of the repository again. Edits of different functions' bodies are tried in one check (together.py), each other one alone. As many crates at a time as
there are processors, at most four, or RT_JOBS. The last line is `N passed, M failed`: one for each edit, and one for each crate whose files are the
repository's again.
"""
import filecmp
import os
import queue
import sys
import threading
from concurrent.futures import ThreadPoolExecutor
from contextlib import ExitStack
from pathlib import Path

sys.path.insert(0, str(Path(__file__).resolve().parents[1]))
import together  # noqa: E402
import workspace  # noqa: E402
from edit import BadEdit, Edit, texts_of  # noqa: E402

EDITS = workspace.ROOT / "tests" / "edits"

said = threading.Lock()


def tell(line, good):
    """Prints a line of one crate, whole; gives on whether it is good."""
    with said:
        print(line, flush=True)
    return good


def readable(name, crate):
    """The edits of a crate that can be applied, and how many cannot."""
    edits, bad = [], 0
    for file in sorted((EDITS / name).glob("*.edit")):
        try:
            edits.append(Edit(file, crate, texts_of(file, crate)))
        except BadEdit as why:
            tell(f"{name}/{file.stem}: BAD EDIT: {why}", False)
            bad += 1
    return edits, bad


def files_below(folder):
    """The files of a crate's src, specs and proofs, by their paths in it."""
    return sorted(path.relative_to(folder) for part in ("src", "specs", "proofs") for path in (folder / part).rglob("*") if path.is_file())


def is_as_in_the_repository(name, crate):
    """Whether a copy of a crate has the files of the repository's, byte for byte."""
    own = workspace.ROOT / "crates" / name
    files = files_below(own)
    return files == files_below(crate) and not any(filecmp.cmpfiles(own, crate, files, shallow=False)[1:])


def try_crate(copies, name):
    """Tries a crate's edits in a copy that is free: how many passed and how many failed."""
    copy = copies.get()
    crate = copy / "crates" / name
    try:
        if not workspace.is_proved(*workspace.check(copy, name)):
            tell(f"{name}: NOT PROVED before any edit", False)
            return 0, 1
        edits, bad = readable(name, crate)
        results = [False] * bad
        for edit, fault, told in together.outcomes(copy, name, edits):
            results.append(tell(f"{name}/{edit.name}: {fault or 'refused'} ({told})", fault is None))
        same = is_as_in_the_repository(name, crate)
        results.append(tell(f"{name}: {'its files are' if same else 'its files are NOT'} the repository's again", same))
        return sum(results), len(results) - sum(results)
    finally:
        copies.put(copy)


def crates_with_edits():
    """The crates that have edits, those with the most first."""
    counts = {d.name: len(list(d.glob("*.edit"))) for d in EDITS.iterdir() if d.is_dir()}
    return sorted((name for name in counts if counts[name]), key=lambda name: -counts[name])


def main():
    names = sys.argv[1:] or crates_with_edits()
    jobs = int(os.environ.get("RT_JOBS") or min(4, os.cpu_count() or 1, len(names)))
    with ExitStack() as stack:
        copies = queue.Queue()
        for _ in range(jobs):
            copies.put(stack.enter_context(workspace.copied(names)))
        with ThreadPoolExecutor(jobs) as pool:
            counts = list(pool.map(lambda name: try_crate(copies, name), names))
    passed, failed = (sum(column) for column in zip(*counts))
    print(f"{passed} passed, {failed} failed")
    sys.exit(1 if failed else 0)


if __name__ == "__main__":
    main()
