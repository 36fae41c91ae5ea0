"""Tries edits of different functions in one check.

A function's proof reads its own body, and of the functions that it calls their promises alone. So a check with edits of several bodies says of each what a
check with that one says, as long as the functions that the edited one calls are proved. A function that calls one that is not proved is tried again in the
next check, behind those that are settled. What a check leaves open is tried alone: an edit that is not refused, or not at a fact, or whose outcome is
doubtful, and each edit where something fails that no edit of the check changes. So every fault is told by a check of the edit alone.
"""
import time

import outcome
import workspace
from edit import apply, take_back


def check(copy, name, edits):
    """Checks a crate with some edits: the status, what is printed, and the seconds that it took."""
    began = time.time()
    apply(edits)
    try:
        status, printed = workspace.check(copy, name, jobs=1)
    finally:
        take_back(edits)
    return status, printed, time.time() - began


def alone(copy, name, edit):
    """Tries an edit alone: the edit, its fault or none, and where and how it was tried."""
    status, printed, took = check(copy, name, [edit])
    fault, where = outcome.fault_of(status, printed)
    return edit, fault, f"{where}; alone, {took:.0f} s"


def one_of_each_function(edits):
    """Of each function's edits the first."""
    firsts = {}
    for edit in edits:
        firsts.setdefault(edit.function, edit)
    return firsts


def outcomes(copy, name, edits):
    """Tries edits of a crate: each with its fault or none, and where and how it was tried."""
    left = [edit for edit in edits if edit.function]
    for edit in edits:
        if not edit.function:
            yield alone(copy, name, edit)
    while left:
        tried = one_of_each_function(left)
        settled = []
        if len(tried) > 1:
            status, printed, took = check(copy, name, tried.values())
            for function, where in outcome.refused_together(status, printed, tried).items():
                settled.append(tried[function])
                yield tried[function], None, f"{where}; one of {len(tried)} in {took:.0f} s"
        if not settled:
            settled = list(tried.values())
            for edit in settled:
                yield alone(copy, name, edit)
        left = [edit for edit in left if edit not in settled]
