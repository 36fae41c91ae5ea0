"""What a check of a crate says of the edits in it: whether each is refused at a fact that no longer holds."""
import re

import workspace

# What the prover says where a fact does not hold: a goal that does not follow, or a step of a proof that shows another fact than the one asked for. An
# error of another kind (a name that is not there, as after a change of the code's shape, or a text that is no term) is none of these.
FACT_FAILS = re.compile(
    r"`omega`: the goal does not follow"
    r"|the two (types|values|sides|indices) (first )?differ"
    r"|the two types are identical apart from"
    r"|computed as a goal is, one side reads"
    r"|expected type `"
    r"|`search`: no proof of `"
    r"|`rw`: no occurrence of the path's left endpoint in the goal"
    r"|`simp`: no equation of the list has an instance in the goal"
    r"|give a proof of that as the last argument"
    r"|list the missing equation with its arguments"
)

# The same of a function that has no walk: the facts that are left of it are not found.
NOT_FOUND = re.compile(r"^fn (\S+): no proof: .*; (`search` did not prove `.*)$", re.M)

# An error, with its file and place, and what is said of it.
ERROR = re.compile(r"^(?:\./)?(\S+?):(\d+:\d+): error: ((?:.|\n  )*)", re.M)

# What is said of an item of the crate that is not proved.
UNPROVED = re.compile(r"^[a-z]+ (\S+): ((?:not proved|no proof|could not tell|not assumed)\b.*)$", re.M)

# The same of one whose own proof holds, and which waits for that of another; and of one whose own does not hold and which waits too.
WAITS = re.compile(r"(no proof: it (calls|passes)|not proved; it waits for) (?!.*`search` did not prove)")
WAITS_TOO = re.compile(r"; it (calls|passes|waits for) ")


def fault_of(status, printed):
    """Why the outcome of the check of an edit alone is not the one wanted, or none; and where the first error stands."""
    if workspace.is_proved(status, printed):
        return "NOT REFUSED: the crate is still proved", ""
    if status != 1 or not re.search(r"^logic=not-proved", printed, re.M):
        return "BAD EDIT: it did not reach the prover", printed.strip().splitlines()[-1][:200]
    first = next((error for error in ERROR.finditer(printed) if error[1].startswith("proofs/")), None)
    left = NOT_FOUND.search(printed)
    if first and not FACT_FAILS.search(first[3]):
        return f"NOT AT A FACT: {first[3][:300]}", f"{first[1]}:{first[2]}"
    if not first and not left:
        return "NOT AT A FACT: no error in a proof", ""
    return None, f"{first[1]}:{first[2]}" if first else left[1]


def is_of(function, parts):
    """Whether a path, of an item's name or of a proof's folder, is that of a function with a name, or of a closure in one."""
    return parts[-1].removeprefix("+") == function or "fn" in parts and function in parts[parts.index("fn"):-1]


def is_own(function, error):
    """Whether an error stands in a proof of a function with a name."""
    parts = error[1].split("/")[:-1]
    return parts[:1] == ["proofs"] and is_of(function, parts)


def refused_together(status, printed, functions):
    """Of a check with edits of these functions, one of each: where those fail that fail at a fact and wait for no other, by function.
    Where anything else fails than the proofs of these functions, none is told."""
    failed = [(name.split("::"), said) for name, said in UNPROVED.findall(printed) if not WAITS.match(said)]
    errors = list(ERROR.finditer(printed))
    others = [name for name, _ in failed if not any(is_of(function, name) for function in functions)]
    elsewhere = [error for error in errors if not any(is_own(function, error) for function in functions)]
    if status != 1 or not re.search(r"^logic=not-proved", printed, re.M) or others or elsewhere:
        return {}
    found = {function: refused_by_itself(function, failed, errors) for function in functions}
    return {function: where for function, where in found.items() if where}


def refused_by_itself(function, failed, errors):
    """Where the first error of a function stands, if it is at a fact and the function waits for no other."""
    own = [(name, said) for name, said in failed if is_of(function, name)]
    if not own or any(WAITS_TOO.search(said) for _, said in own):
        return None
    first = next((error for error in errors if is_own(function, error)), None)
    if first:
        return f"{first[1]}:{first[2]}" if FACT_FAILS.search(first[3]) else None
    left = next((name for name, said in own if "; `search` did not prove `" in said), None)
    return left and "::".join(left)
