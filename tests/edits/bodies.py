"""Which function's body a line of code stands in, by the layout that `rt fmt` gives a file.

A function begins with its line, and what goes on with its signature or is a clause stands deeper or begins with a bracket. Its body begins behind the line
that ends in an opening brace at the function's own indent, and ends before the closing brace there.
"""
import re

# The first line of a function. A `const fn` is none: constants can rest on its body.
HEAD = re.compile(r"( *)(?:pub(?:\([^)]*\))? )?(?:unsafe )?(?:extern \"C\" )?fn (\w+)")


def body_of(lines, at, indent):
    """The first and the last line of the body of the function that begins at a line, or none where it has no body on lines of its own."""
    for first in range(at, len(lines)):
        line = lines[first].removeprefix(indent)
        if not lines[first].startswith(indent) or (first > at and not line.startswith((" ", ")", "{", "where"))):
            return None
        if not line.startswith(" ") and line.endswith("{"):
            last = next((number for number in range(first, len(lines)) if lines[number] == indent + "}"), first)
            return first + 1, last - 1
        if not line.startswith(" ") and line.endswith((";", "}")):
            return None
    return None


def function_at(lines, at):
    """The name of the innermost function whose body has a line, if there is one."""
    for begin in range(at, -1, -1):
        head = HEAD.match(lines[begin])
        body = head and body_of(lines, begin, head[1])
        if body and body[0] <= at <= body[1]:
            return head[2]
    return None
