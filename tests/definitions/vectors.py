#!/usr/bin/env python3
"""vectors.py N: holds the definitions to N of the stored vectors by computing.

Each vector becomes a line of antt, that the answer of `calls/specs/Answers.antt` on its list is the vector's number and bytes, by `refl`. The lines are
checked in a copy whose crate calls has them as its only proofs. The last line is `N passed, M failed`.
"""
import re
import shutil
import sys
from pathlib import Path

sys.path.insert(0, str(Path(__file__).resolve().parents[1]))
import workspace  # noqa: E402
from workspace import ROOT  # noqa: E402

LONGEST = 420  # bytes of a list that computes within a second or two


def octets(text):
    """The bytes of a field, as an antt list."""
    data = b"" if text == "-" else bytes.fromhex(text)
    return "".join(f"{b} ∷ " for b in data) + "[]", len(data)


def buckets_in(text):
    """The buckets of a field, as an antt list."""
    data = b"" if text == "-" else bytes.fromhex(text)
    numbers = [int.from_bytes(data[i:i + 4], "little") for i in range(0, len(data), 4)]
    return "".join(f"bucket_is {n} ∷ " for n in numbers) + "[]", len(numbers)


def read(call):
    """The vectors of a call, as (id, number, antt call, antt fields of the answer besides its number)."""
    for line in (ROOT / "vectors" / f"{call}.txt").read_text().splitlines():
        if line.startswith("#") or not line.strip():
            continue
        if call == "apply":
            name, out, number, volume, change, answer = line.split()
            (v, n), (c, m), (a, _) = octets(volume), octets(change), octets(answer)
            size, term = n + m, f"apply ({v}) ({c}) {out}"
        elif call == "generations":
            name, out, number, visited, volume, buckets, answer = line.split()
            (v, n), (b, m), (a, _) = octets(volume), buckets_in(buckets), octets(answer)
            size, term = n + m, f"generations ({v}) ({b}) {out}"
            a += f"; visited = {visited}"
        else:
            name, scratch, out, number, bytes_, answer = line.split()
            (s, size), (a, _) = octets(bytes_), octets(answer)
            term = f"{call} ({s}) {scratch + ' ' if call == 'release' else ''}{out}"
        if size <= LONGEST:
            yield name, int(number), term, f"written = {a}"


def spread(vectors, count):
    """The first few of each number in turn, so that every number is met before any is met often; lists in another order count apart."""
    by_number = {}
    for v in vectors:
        by_number.setdefault((v[1], "-order-" in v[0]), []).append(v)
    out, turn = [], 0
    while len(out) < count and any(len(vs) > turn for vs in by_number.values()):
        for number in sorted(by_number):
            if turn < len(by_number[number]) and len(out) < count:
                out.append(by_number[number][turn])
        turn += 1
    return out


def write(copy, chosen):
    """A module of one line for each vector, in place of the crate's proofs."""
    proofs = copy / "crates" / "calls" / "proofs"
    shutil.rmtree(proofs)
    proofs.mkdir()
    (proofs / "Lib.antt").write_text("pub mod Vectors\n")
    lines = ["use mathlib.Core.Path.{◌≡◌, refl}", "use mathlib.Core.List.{List, [], ◌∷◌}", "use Rattle.wire.specs.Kinds.{bucket_is}",
             "use Rattle.calls.specs.Answers.{Answer, GenerationsAnswer, place, release, discard, apply, sort, generations}", ""]
    for i, (name, number, term, answer) in enumerate(chosen):
        call = term.split()[0]
        lines += [f"-- {name}", f"v{i} : {term} ≡ record {{ number = {number}; {answer} }}", f"unfolding {call}", f"v{i} = refl", ""]
    (proofs / "Vectors.antt").write_text("\n".join(lines))


def main():
    if len(sys.argv) != 2 or not sys.argv[1].isdigit():
        sys.exit(__doc__)
    calls = ("place", "release", "discard", "apply", "sort", "generations")
    share = -(-int(sys.argv[1]) // len(calls))
    chosen = [v for call in calls for v in spread(read(call), share)]
    with workspace.copied(["calls"]) as copy:
        write(copy, chosen)
        status, printed = workspace.check(copy, "calls")
    bad = {m.group(1) for m in re.finditer(r"Vectors\.antt:\d+:\d+: error: `(v\d+)`", printed)}
    for label in sorted(bad, key=lambda b: int(b[1:])):
        print("disagrees:", chosen[int(label[1:])][0])
    if not bad and not workspace.is_proved(status, printed):
        sys.exit(f"{printed[-3000:]}\nthe crate calls was not checked")
    counts = {}
    for name, number, term, _ in chosen:
        counts.setdefault(term.split()[0], []).append(number)
    for call, numbers in counts.items():
        print(f"{call}: {len(numbers)} vectors, numbers {sorted(set(numbers))}")
    print(f"{len(chosen) - len(bad)} passed, {len(bad)} failed")
    sys.exit(1 if bad else 0)


main()
